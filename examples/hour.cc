// The capacities of one hour in C++17, where only the borders given may rise: a line for each, its ATC in MW, the round that last
// raised it and the row that stopped it; and how many rounds there were of how many at most.
//
//   g++ -std=c++17 examples/hour.cc -IPREFIX/include -LPREFIX/lib -lkeravnoth -Wl,-rpath,PREFIX/lib -o hour
//   ./hour hours/planner.tsv 0 3
//
// Status: 0 all printed, 1 refused, 2 the file cannot be read, or a border is no number.
#include "keravnoth_easy.h"

#include <fstream>
#include <iostream>
#include <iterator>
#include <memory>
#include <string>
#include <vector>

template <typename Answer> void accept(KeravnothHour &hour, const Answer &answer)
{
    if (answer.number != KERAVNOTH_ACCEPTED)
        throw std::string(keravnoth_hour_words(&hour, answer.number, answer.place, answer.byte));
}

int main(int argc, char **argv)
{
    std::ifstream file(argc > 1 ? argv[1] : "", std::ios::binary);
    const std::vector<uint8_t> text{std::istreambuf_iterator<char>(file), std::istreambuf_iterator<char>()};
    if (!file.is_open() || file.bad()) {
        std::cerr << "usage: hour TABLE [BORDER..]\n";
        return 2;
    }
    std::vector<uint64_t> marks;
    try {
        for (int k = 2; k < argc; k++)
            marks.push_back(std::stoul(argv[k]));
    } catch (const std::exception &) {
        std::cerr << "a border is no number\n";
        return 2;
    }
    const uint64_t *rising = marks.empty() ? nullptr : marks.data();

    const auto hour = std::make_unique<KeravnothHour>();
    try {
        accept(*hour, keravnoth_hour_read(hour.get(), text.data(), text.size(), nullptr, 0));
        const KeravnothBounded most = keravnoth_hour_bound(hour.get(), rising, marks.size());
        accept(*hour, most);
        const KeravnothExtracted work = keravnoth_hour_extract(hour.get(), rising, marks.size());
        accept(*hour, work);
        for (size_t border = 0; border < hour->table.borders; border++) {
            const auto &atc = hour->atc[border];
            std::cout << border << '\t' << atc[KERAVNOTH_ATC_MW] << '\t' << atc[KERAVNOTH_ATC_LAST_ROUND] << '\t' << atc[KERAVNOTH_ATC_STOP_ROW] << '\n';
        }
        std::cout << work.rounds << " of " << most.sharp << '\n';
    } catch (const std::string &why) {
        std::cerr << why << '\n';
        return 1;
    }
}
