// Compares a page with the program's own answers: every figure, every bar, every link. Reads the page as XML, and fails where a figure is left that nothing was compared with.
// usage: pages PROGRAM PAGE TABLE [MARKS [SHEET]]    the page of a table; SHEET are its corrections, and - stands for no marks
//        pages day PROGRAMS PAGE MARKS TABLE..        the page of a day
// --spoilt as the first word: that spoilt pages are seen
use std::collections::{HashMap, HashSet};
use std::process::{Command, Stdio};

type Told<T> = Result<T, String>;

// ---- the page, read as XML: tags closed in order, attributes in quotes, no entity but those of HTML that are used here

struct Node {
    tag: String,
    attributes: Vec<(String, String)>,
    text: String,
    children: Vec<usize>,
}

struct Page {
    // what the ids of the hour begin with
    hour: String,
    nodes: Vec<Node>,
    ids: HashMap<String, usize>,
    seen: HashSet<usize>,
}

fn plain(text: &str) -> Told<String> {
    let mut out = String::new();
    let mut rest = text;
    while let Some(at) = rest.find('&') {
        out.push_str(&rest[..at]);
        let end = rest[at..].find(';').ok_or("an & without ;")? + at;
        match &rest[at + 1..end] {
            "lt" => out.push('<'),
            "gt" => out.push('>'),
            number => {
                let digits = number.strip_prefix('#').ok_or(format!("the entity {number}"))?;
                let code: u32 = digits.parse().map_err(|_| format!("the entity {number}"))?;
                out.push(char::from_u32(code).ok_or("an entity out of range")?);
            }
        }
        rest = &rest[end + 1..];
    }
    out.push_str(rest);
    Ok(out)
}

fn read(text: &str) -> Told<Page> {
    let mut page = Page { hour: "".into(), nodes: vec![], ids: HashMap::new(), seen: HashSet::new() };
    page.nodes.push(Node { tag: "".into(), attributes: vec![], text: "".into(), children: vec![] });
    let mut open = vec![0];
    let mut rest = text.strip_prefix("<!DOCTYPE html>").ok_or("no DOCTYPE")?;
    while !rest.is_empty() {
        if let Some(tag) = rest.strip_prefix("</") {
            let end = tag.find('>').ok_or("a tag without >")?;
            let last = open.pop().ok_or("a tag too many")?;
            if page.nodes[last].tag != tag[..end] {
                return Err(format!("</{}> closes <{}>", &tag[..end], page.nodes[last].tag));
            }
            rest = &tag[end + 1..];
        } else if rest.starts_with('<') {
            let end = rest.find('>').ok_or("a tag without >")?;
            let alone = rest[..end].ends_with('/');
            let inside = rest[1..end].trim_end_matches('/');
            let (name, mut more) = inside.split_once(' ').unwrap_or((inside, ""));
            let mut attributes = vec![];
            while !more.trim().is_empty() {
                let (key, value) = more.trim_start().split_once("=\"").ok_or(format!("attributes {more}"))?;
                let close = value.find('"').ok_or("a quote is missing")?;
                if key.is_empty() || !key.bytes().all(|b| b.is_ascii_alphanumeric() || b == b'-') {
                    return Err(format!("the attribute {key}"));
                }
                attributes.push((key.to_string(), plain(&value[..close])?));
                more = &value[close + 1..];
            }
            if name.is_empty() || !name.bytes().all(|b| b.is_ascii_alphanumeric()) {
                return Err(format!("the tag {name}"));
            }
            let at = page.nodes.len();
            if let Some((_, id)) = attributes.iter().find(|(k, _)| k == "id") {
                if page.ids.insert(id.clone(), at).is_some() {
                    return Err(format!("the id {id} twice"));
                }
            }
            page.nodes.push(Node { tag: name.into(), attributes, text: "".into(), children: vec![] });
            let parent = *open.last().ok_or("a tag behind the end")?;
            page.nodes[parent].children.push(at);
            if !alone {
                open.push(at);
            }
            rest = &rest[end + 1..];
        } else {
            let end = rest.find('<').unwrap_or(rest.len());
            let at = page.nodes.len();
            page.nodes.push(Node { tag: "#".into(), attributes: vec![], text: plain(&rest[..end])?, children: vec![] });
            let parent = *open.last().ok_or("text behind the end")?;
            page.nodes[parent].children.push(at);
            rest = &rest[end..];
        }
    }
    if open.len() != 1 {
        return Err(format!("<{}> is not closed", page.nodes[*open.last().unwrap()].tag));
    }
    Ok(page)
}

impl Page {
    fn attribute(&self, at: usize, key: &str) -> &str {
        self.nodes[at].attributes.iter().find(|(k, _)| k == key).map_or("", |(_, v)| v)
    }

    // All nodes below, in order.
    fn below(&self, at: usize) -> Vec<usize> {
        let mut out = vec![];
        for &child in &self.nodes[at].children {
            out.push(child);
            out.extend(self.below(child));
        }
        out
    }

    fn words(&self, at: usize) -> String {
        let all: String = self.below(at).iter().map(|&k| self.nodes[k].text.as_str()).collect();
        self.nodes[at].text.clone() + &all
    }

    fn tagged(&self, at: usize, tag: &str) -> Vec<usize> {
        self.below(at).into_iter().filter(|&k| self.nodes[k].tag == tag).collect()
    }

    fn mark(&mut self, at: usize) {
        self.seen.insert(at);
        for k in self.below(at) {
            self.seen.insert(k);
        }
    }

    // The text of a part is this; it counts as compared.
    fn says(&mut self, at: usize, wanted: &str, what: &str) -> Told<()> {
        let words = self.words(at);
        if words.trim() != wanted.trim() {
            return Err(format!("{what}: '{}' on the page, '{}' by the answers", words.trim(), wanted.trim()));
        }
        self.mark(at);
        Ok(())
    }

    fn id(&self, id: &str) -> Told<usize> {
        let id = format!("{}{id}", self.hour);
        self.ids.get(&id).copied().ok_or(format!("nothing has the id {id}"))
    }

    fn classed(&self, at: usize, class: &str) -> Vec<usize> {
        self.below(at).into_iter().filter(|&k| self.attribute(k, "class") == class).collect()
    }

    fn only(&self, at: usize, class: &str) -> Told<usize> {
        let found = self.classed(at, class);
        if found.len() == 1 { Ok(found[0]) } else { Err(format!("{} parts of class {class}", found.len())) }
    }
}

// ---- the answers

struct Hour {
    refused: Option<Vec<i64>>,
    table: Vec<u8>,
    zones: usize,
    intraday: bool,
    borders: Vec<Vec<i64>>,
    factors: Vec<Vec<i64>>,
    marked: Vec<bool>,
    marks: bool,
    a: Vec<Vec<i64>>,
    left: Vec<i64>,
    rounds: i64,
    v: Vec<Vec<i64>>,
    start: Vec<i64>,
    bound: Vec<i64>,
    why: Vec<String>,
}

// Of the two programs in the folder, the one whose word it is.
fn ask(programs: &str, words: &[&str], table: &str) -> Told<String> {
    let own = if matches!(words.first(), Some(&"why" | &"day")) { "further" } else { "keravnoth" };
    let program = std::path::Path::new(programs).join(own);
    let file = std::fs::File::open(table).map_err(|e| e.to_string())?;
    let done = Command::new(program).args(words).stdin(file).stderr(Stdio::null()).output().map_err(|e| e.to_string())?;
    String::from_utf8(done.stdout).map_err(|e| e.to_string())
}

// The fields behind the letter; a "-" is -1.
fn numbers(text: &str, letter: &str) -> Vec<Vec<i64>> {
    let of = |line: &str| line.split('\t').skip(1).map(|f| if f == "-" { -1 } else { f.parse().unwrap() }).collect();
    text.lines().filter(|l| l.split('\t').next() == Some(letter)).map(of).collect()
}

fn load(programs: &str, name: &str, marks: Option<&str>, sheet: Option<&str>) -> Told<Hour> {
    let corrections: Vec<&str> = sheet.map_or(vec![], |sheet| vec!["--corrections", sheet]);
    let mut option: Vec<&str> = marks.map_or(vec![], |list| vec!["--marks", list]);
    option.extend(&corrections);
    let with = |word: &'static str| -> Vec<&str> { [word].into_iter().chain(corrections.iter().copied()).collect() };
    let table = std::fs::read(name).map_err(|e| e.to_string())?;
    let answer = ask(programs, &option, name)?;
    let text = ask(programs, &with("rewrite"), name)?;
    let mut h = Hour {
        refused: numbers(&answer, "E").pop(), table, zones: 0, intraday: false, borders: vec![], factors: vec![], marked: vec![], marks: marks.is_some(),
        a: numbers(&answer, "A"), left: vec![], rounds: 0, v: vec![], start: vec![], bound: vec![], why: vec![],
    };
    let v = ask(programs, &with("margins"), name)?;
    if v.starts_with('E') {
        return Ok(h);
    }
    h.v = numbers(&v, "V");
    let positions: Vec<i64> = numbers(&text, "T").iter().map(|t| t[1]).collect();
    h.zones = numbers(&text, "Z").len();
    h.intraday = !positions.is_empty();
    h.borders = numbers(&text, "B");
    h.factors = numbers(&text, "C").iter().map(|c| c[8..].to_vec()).collect();
    h.marked = (0..h.borders.len()).map(|b| marks.map_or(true, |list| list.split(',').any(|m| m == b.to_string()))).collect();
    for (v, f) in h.v.iter().zip(&h.factors) {
        let put: i64 = f.iter().zip(&positions).map(|(f, t)| f * t).sum();
        h.start.push(if h.intraday { v[11] - put } else { v[12] });
    }
    if h.refused.is_some() {
        return Ok(h);
    }
    h.left = numbers(&answer, "M").iter().map(|m| m[3]).collect();
    h.rounds = numbers(&answer, "R")[0][0];
    let words: Vec<&str> = ["bound"].into_iter().chain(option.iter().copied()).collect();
    h.bound = numbers(&ask(programs, &words, name)?, "U").remove(0);
    for b in 0..h.borders.len() {
        let b = b.to_string();
        let words: Vec<&str> = ["why", &b].into_iter().chain(option.iter().copied()).collect();
        h.why.push(ask(programs, &words, name)?);
    }
    Ok(h)
}

impl Hour {
    fn kept(&self, i: usize) -> bool {
        self.v[i][1] == 0
    }

    fn p(&self, i: usize, b: usize) -> i64 {
        let (f, x) = (&self.factors[i], &self.borders[b]);
        let at = |k: usize| f[x[k] as usize];
        let hubs = if x.len() == 6 { at(5) - at(4) } else { 0 };
        if self.kept(i) { (at(1) - at(2) + hubs).max(0) } else { 0 }
    }

    // n: the marked borders that load a row.
    fn sharers(&self, i: usize) -> i64 {
        let answered = self.refused.is_none();
        (0..self.borders.len()).filter(|&b| self.p(i, b) > 0 && (self.marked[b] || !answered)).count() as i64
    }

    // Row i stops border b at the end: its equal share is under one kW.
    fn stops(&self, i: usize, b: usize) -> bool {
        self.marked[b] && self.p(i, b) > 0 && self.left[i] / self.sharers(i) / self.p(i, b) == 0
    }

    fn stopping(&self, b: usize) -> Vec<usize> {
        (0..self.v.len()).filter(|&i| self.stops(i, b)).collect()
    }

    fn stopped(&self, i: usize) -> usize {
        (0..self.borders.len()).filter(|&b| self.stops(i, b)).count()
    }

    // The row that ended a border's rise, as its reasons tell it.
    fn ended(&self, b: usize) -> Option<usize> {
        let line = self.why[b].lines().find(|l| l.starts_with("Row ") && l.contains(" stopped it"))?;
        line[4..].split(' ').next()?.parse().ok()
    }

    // Taken, shared out, left; and how far the bar goes.
    fn taken(&self, i: usize) -> i64 {
        self.v[i][11] - self.start[i]
    }

    fn shared(&self, i: usize) -> i64 {
        if self.refused.is_none() { self.start[i].max(0) - self.left[i] } else { 0 }
    }

    fn rest(&self, i: usize) -> i64 {
        if self.refused.is_none() { self.left[i] } else { self.start[i].max(0) }
    }

    fn made(&self, i: usize) -> i64 {
        self.v[i][5] + self.v[i][6] + self.v[i][8]
    }

    fn reach(&self, i: usize) -> i64 {
        self.made(i).max(self.taken(i).max(0) + self.shared(i) + self.rest(i))
    }
}

// ---- scales and figures, in whole numbers

fn scale(values: &[i64]) -> i64 {
    let mut ends = vec![4, 8, 12, 16, 20, 24, 32];
    for k in 1..11 {
        ends.extend([4, 6, 8, 10, 12, 16, 20, 24, 32].map(|f| f * 10i64.pow(k)));
    }
    let above = |end: i64| values.iter().filter(|&&v| v > end).count();
    let end = *ends.iter().find(|&&e| above(e) <= (values.len() + 8) / 16).unwrap();
    if above(4 * end) == 0 { *ends.iter().find(|&&e| above(e) == 0).unwrap() } else { end }
}

fn place(v: i64, end: i64, units: i64) -> i64 {
    (v.max(0) as i128 * units as i128 / end as i128).min(units as i128) as i64
}

// Grains as MW with so many decimals, cut.
fn mw(grains: i64, decimals: u32) -> String {
    let one = 10i64.pow(decimals);
    let steps = grains.abs() / (100_000_000 / one);
    let sign = if grains < 0 { "-" } else { "" };
    if steps == 0 && grains != 0 {
        return format!("{sign}<0.{:0>width$}", 1, width = decimals as usize);
    }
    format!("{sign}{}.{:0>width$}", steps / one, steps % one, width = decimals as usize)
}

fn some(n: usize, one: &str, many: &str) -> String {
    format!("{n} {}", if n == 1 { one } else { many })
}

// The shapes of a bar, and the text at its end.
fn shapes(page: &mut Page, svg: usize, wanted: &[String], what: &str) -> Told<()> {
    let mut found = vec![];
    for k in page.below(svg) {
        let n = &page.nodes[k];
        match n.tag.as_str() {
            "#" => {}
            "text" => found.push(format!("text {} {} {}", page.attribute(k, "x"), page.attribute(k, "dx"), page.words(k))),
            "use" => found.push(format!("use {}", page.attribute(k, "href"))),
            _ => found.push(format!("{} {} {}", n.tag, page.attribute(k, "class"), page.attribute(k, "d"))),
        }
    }
    if found != wanted {
        return Err(format!("{what}: {found:?} on the page, {wanted:?} by the answers"));
    }
    page.mark(svg);
    Ok(())
}

fn filled(class: &str, from: i64, to: i64, y: i64, high: i64) -> Vec<String> {
    let first = if from == 0 { "M0".to_string() } else { format!("M{from}") };
    if from < to { vec![format!("path {class} {first} {y}H{to}v{high}H{from}z")] } else { vec![] }
}

fn boxed(class: &str, from: i64, to: i64) -> Vec<String> {
    if from < to { vec![format!("path {class} M{to} 3.5m-.5 0v9H{from}.5v-9z")] } else { vec![] }
}

fn axis(page: &mut Page, svg: usize, end: i64, units: i64) -> Told<()> {
    let mut wanted = vec!["text 0  0 MW".to_string()];
    wanted.extend((1..5).map(|k| format!("text {}  {}", k * units / 4, k * end / 4)));
    shapes(page, svg, &wanted, "the scale")
}

// ---- the parts of a page

fn headline(page: &mut Page, h: &Hour, body: usize) -> Told<()> {
    let tiles: Vec<usize> = page.tagged(body, "div").into_iter().filter(|&d| page.attribute(d, "class") == "tiles").collect();
    let kept = (0..h.v.len()).filter(|&i| h.kept(i)).count();
    let mut wanted = vec![format!("{}zones", h.zones), format!("{}borders", h.borders.len())];
    let answered = h.refused.is_none();
    if answered && h.marks {
        wanted.push(format!("{}of them marked", h.marked.iter().filter(|m| **m).count()));
    }
    wanted.push(format!("{}rows, {kept} kept", h.v.len()));
    if answered {
        wanted.push(format!("{}{}", h.rounds, if h.rounds == 1 { "round" } else { "rounds" }));
        wanted.push(format!("{}rounds at most (2 \u{d7} {} \u{d7} {} gives {})", h.bound[3], h.bound[0], h.bound[1], h.bound[2]));
        if h.rounds > h.bound[3] {
            return Err("more rounds than the bound".into());
        }
    }
    let shown = page.nodes[tiles[0]].children.clone();
    if shown.len() != wanted.len() {
        return Err("another number of tiles".into());
    }
    for (tile, words) in shown.into_iter().zip(&wanted) {
        page.says(tile, words, "a tile")?;
    }
    Ok(())
}

fn summary(page: &mut Page, h: &Hour, body: usize) -> Told<()> {
    let rows: Vec<usize> = (0..h.v.len()).filter(|&i| h.stopped(i) > 0).collect();
    let kept = (0..h.v.len()).filter(|&i| h.kept(i)).count();
    let both = (0..h.borders.len()).filter(|&b| h.stopping(b).len() > 1).count();
    let mut words = format!("Of {} {} {} the borders: ", some(kept, "kept row", "kept rows"), rows.len(), if rows.len() == 1 { "stops" } else { "stop" });
    let list: Vec<String> = rows.iter().take(8).map(|&i| format!("row {i} stops {}", h.stopped(i))).collect();
    words += &list.join(", ");
    if rows.len() > 8 {
        words += &format!(" and {} more", rows.len() - 8);
    }
    if both > 0 {
        words += &format!(". {} stopped by more than one row", some(both, "border is", "borders are"));
    }
    let at = page.nodes[body].children.iter().copied().find(|&k| page.words(k).starts_with("Of ")).ok_or("no summary")?;
    page.says(at, &(words + "."), "the summary")
}

fn borders(page: &mut Page, h: &Hour) -> Told<()> {
    let end = scale(&h.a.iter().map(|a| a[1]).collect::<Vec<_>>());
    let cables = h.borders.iter().any(|x| x.len() == 6);
    for (b, a) in h.a.iter().enumerate() {
        let what = format!("border {b}");
        let tr = page.id(&format!("b{b}"))?;
        let mut td = page.tagged(tr, "td");
        let x = &h.borders[b];
        let (atc, last) = (a[1], a[2]);
        if b == 0 {
            let table = (0..page.nodes.len()).find(|&k| page.nodes[k].tag == "table" && page.below(k).contains(&tr)).unwrap();
            let head = page.tagged(table, "svg")[0];
            axis(page, head, end, 460)?;
        }
        page.says(td[0], &b.to_string(), &what)?;
        page.says(td[1], &format!("{} \u{2192} {}", x[1], x[2]), &what)?;
        if cables {
            let hubs = if x.len() == 6 { format!("{} \u{2192} {}", x[4], x[5]) } else { "".into() };
            page.says(td.remove(2), &hubs, &what)?;
        }
        let start = if h.intraday { 0 } else { x[3] };
        page.says(td[2], &start.to_string(), &what)?;
        let raised = if atc == start && last > 0 { "<1".into() } else { (atc - start).to_string() };
        page.says(td[3], &raised, &what)?;
        let (from, to) = (place(start, end, 460), place(atc, end, 460).max((atc > 0) as i64));
        let mut bar = vec!["use #bg".to_string()];
        bar.extend(filled("a", 0, from, 5, 12));
        bar.extend(filled("l", from, to, 5, 12));
        if atc > end {
            bar.push("use #bx".into());
        }
        bar.push(format!("text {to} 6 {atc}"));
        let svg = page.tagged(td[4], "svg")[0];
        shapes(page, svg, &bar, &what)?;
        page.says(td[5], &(if last > 0 { last.to_string() } else { "none".into() }), &what)?;
        let rows = h.stopping(b);
        let mut words = "not marked".to_string();
        if h.marked[b] {
            let ended = h.ended(b).ok_or(format!("{what}: no row ended it"))?;
            if rows.first() != Some(&(a[3] as usize)) || !rows.contains(&ended) {
                return Err(format!("{what}: the rows that stop it are {rows:?}"));
            }
            words = format!("row {}", a[3]);
            let others: Vec<_> = rows[1..].to_vec();
            if ended as i64 != a[3] {
                words += &format!(" (row {ended} first)");
            } else if others.len() == 1 {
                words += &format!(" (also row {})", others[0]);
            } else if others.len() > 1 {
                words += &format!(" (also {} more)", others.len());
            }
        }
        page.says(td[6], &words, &what)?;
        for link in page.tagged(td[6], "a") {
            if format!("#{}{}", page.hour, page.words(link).replace("row ", "r")) != page.attribute(link, "href") {
                return Err(format!("{what}: a link to another row"));
            }
        }
        let why = page.id(&format!("w{b}"))?;
        page.says(why, &h.why[b].replace('\n', " "), &format!("the reasons of border {b}"))?;
    }
    Ok(())
}

fn row_bar(h: &Hour, i: usize, end: i64) -> Vec<String> {
    let grains = end * 100_000_000;
    let at = |v: i64| place(v, grains, 320);
    let (v, t, ram) = (&h.v[i], h.taken(i).max(0), h.v[i][11]);
    let used = t + h.shared(i);
    let mut bar = vec!["use #rg".to_string()];
    bar.extend(filled("a", 0, at(t.min(ram.max(0))), 3, 10));
    bar.extend(boxed("o", at(t.min(ram.max(0))), at(t)));
    bar.extend(filled("l", at(t), at(used), 3, 10));
    bar.extend(boxed("w", at(used), at(used + h.rest(i))));
    bar.extend(filled("p", 0, at(v[5]), 14, 4));
    bar.extend(filled("q", at(v[5]), at(v[5] + v[6]), 14, 4));
    bar.extend(filled("r", at(v[5] + v[6]), at(h.made(i)), 14, 4));
    if h.intraday && ram > 0 && ram <= grains {
        bar.push(format!("path k M{} 1v13", at(ram)));
    }
    if h.reach(i) > grains {
        bar.push("use #rx".into());
    }
    bar.push(format!("text {} 6 {}", at(h.reach(i)), mw(ram, 1)));
    bar
}

fn rows(page: &mut Page, h: &Hour, body: usize) -> Told<()> {
    let kept: Vec<usize> = (0..h.v.len()).filter(|&i| h.kept(i)).collect();
    let end = scale(&kept.iter().map(|&i| (h.reach(i) + 99_999_999) / 100_000_000).collect::<Vec<_>>());
    let answered = h.refused.is_none();
    let first = kept.iter().filter(|&&i| answered && h.stopped(i) > 0).count();
    for svg in page.tagged(body, "svg").into_iter().filter(|&s| page.attribute(s, "class") == "raxis").collect::<Vec<_>>() {
        axis(page, svg, end, 320)?;
    }
    for &i in &kept {
        let what = format!("row {i}");
        let tr = page.id(&format!("r{i}"))?;
        let td = page.tagged(tr, "td");
        let mut wanted = vec![i.to_string(), h.sharers(i).to_string()];
        if answered {
            let alone = (0..h.borders.len()).filter(|&b| h.stopping(b) == [i]).count();
            let stops = h.stopped(i) > 0;
            wanted.push(if stops { h.stopped(i).to_string() } else { "".into() });
            wanted.push(if stops { alone.to_string() } else { "".into() });
        }
        let bar = wanted.len();
        wanted.push("".into());
        wanted.push(mw(h.taken(i), 1));
        if answered {
            wanted.extend([mw(h.shared(i), 1), mw(h.left[i], 1)]);
        } else {
            wanted.push(mw(h.v[i][12], 1));
        }
        wanted.extend([5, 6, 8, 9, 10].map(|k| mw(h.v[i][k], 1)));
        if td.len() != wanted.len() {
            return Err(format!("{what}: another number of cells"));
        }
        for (k, words) in wanted.iter().enumerate() {
            if k == bar {
                let svg = page.tagged(td[k], "svg")[0];
                shapes(page, svg, &row_bar(h, i, end), &what)?;
            } else {
                page.says(td[k], words, &what)?;
                if page.attribute(td[k], "class").ends_with(" z") != (words == "0.0" && k > bar) {
                    return Err(format!("{what}: grey or not"));
                }
            }
        }
    }
    let heading = |page: &mut Page, begin: &str, n: usize| -> Told<()> {
        let found = page.below(body).into_iter().find(|&k| page.nodes[k].tag != "#" && page.words(k).starts_with(begin) && page.nodes[k].children.len() == 1);
        match found {
            Some(k) => page.says(k, &format!("{begin}{n}"), begin),
            None if n == 0 => Ok(()),
            None => Err(format!("'{begin}' is missing")),
        }
    };
    if answered {
        heading(page, "Rows that stop borders: ", first)?;
        heading(page, "Other kept rows: ", kept.len() - first)?;
    }
    heading(page, "Rows not kept: ", h.v.len() - kept.len())?;
    let of = |state: i64| (0..h.v.len()).filter(move |&i| h.v[i][1] == state);
    let small: Vec<String> = of(1).map(|i| format!("row {i} (RAM {} MW)", mw(h.v[i][11], 1))).collect();
    let same: Vec<String> = of(2).map(|i| {
        let alike = |&j: &usize| h.kept(j) && (0..h.zones).all(|z| h.factors[j][z] - h.factors[i][z] == h.factors[j][0] - h.factors[i][0]);
        let j = (0..h.v.len()).find(alike).unwrap_or(9999);
        format!("row {i} (RAM {} MW) as row {j} ({} MW)", mw(h.v[i][11], 1), mw(h.v.get(j).map_or(0, |v| v[11]), 1))
    }).collect();
    for (begin, list) in [("Under 5% (the factors are less than 0.05000 apart, so that exchanges hardly load the row): ", small), ("Says the same as a kept row that has no more RAM: ", same)] {
        let found = page.tagged(body, "p").into_iter().find(|&k| page.words(k).starts_with(&begin[..9]));
        match found {
            Some(k) => page.says(k, &format!("{begin}{}.", list.join(", ")), "rows not kept")?,
            None if list.is_empty() => {}
            None => return Err(format!("'{begin}' is missing")),
        }
    }
    Ok(())
}

// A byte as the page shows it.
fn shown(byte: u8) -> String {
    match byte {
        9 => "TAB".into(),
        10 => "LF".into(),
        13 => "CR".into(),
        32 => "blank".into(),
        33..=126 => (byte as char).to_string(),
        _ => format!("{byte:02X}"),
    }
}

fn refusal(page: &mut Page, h: &Hour, body: usize) -> Told<()> {
    let e = h.refused.as_ref().unwrap();
    let code = page.tagged(body, "code")[0];
    page.says(code, &format!("E {} {} {}", e[0], e[1], e[2]), "the answer")?;
    let border = format!("{}b", page.hour);
    if page.ids.keys().any(|id| id.strip_prefix(&border).is_some_and(|b| b.parse::<u64>().is_ok())) {
        return Err("a capacity on the page of a refused table".into());
    }
    let no = page.tagged(body, "div").into_iter().find(|&d| page.attribute(d, "class") == "no").ok_or("no refusal")?;
    let line = page.tagged(no, "p").into_iter().find(|&p| page.attribute(p, "class") == "line");
    if e[2] > 0 && e[0] != 10 {
        let bytes = h.table.split(|&b| b == b'\n').nth(e[1] as usize - 1).unwrap_or(&[]);
        let bad = bytes.get(e[2] as usize - 1).copied().unwrap_or(b'\n');
        let marked = page.tagged(line.ok_or("no line")?, "b");
        if marked.len() != 1 || page.words(marked[0]) != shown(bad) {
            return Err("another byte is marked".into());
        }
    }
    if let (Some(line), true) = (line, e[0] == 2 || e[0] == 3) {
        if !page.words(line).starts_with(&format!("line {} ", e[1])) {
            return Err("another line is shown".into());
        }
    }
    if e[0] == 7 {
        let i = e[1] as usize;
        let v = &h.v[i];
        let mut words = format!("Row {i} starts below 0: its RAM is {} MW = Base {}", mw(v[11], 3), mw(v[5], 3));
        for (name, sign, k) in [("AMR", '+', 6), ("LTA margin", '+', 8), ("CVA", '\u{2212}', 9), ("IVA", '\u{2212}', 10)] {
            if v[k] != 0 {
                words += &format!(" {sign} {name} {}", mw(v[k], 3));
            }
        }
        words += &format!(", and the rights of all borders take {} MW, {} MW more than there are. Lower CVA or IVA of the row.", mw(v[7], 3), mw(-v[12], 3));
        let p = page.tagged(no, "p")[0];
        page.says(p, &words, "row below 0")?;
    }
    // the line itself and the words of the fault come from outside, and are held by stored texts
    page.mark(no);
    Ok(())
}

// The page of one hour, or the part of an hour on that of a day.
fn part(page: &mut Page, h: &Hour, body: usize) -> Told<()> {
    if !h.v.is_empty() {
        headline(page, h, body)?;
        rows(page, h, body)?;
    }
    if h.refused.is_some() {
        refusal(page, h, body)?;
    } else {
        summary(page, h, body)?;
        borders(page, h)?;
    }
    let known = (1..=65536).contains(&h.table.len());
    let bytes = format!("rom a table of {} bytes", h.table.len());
    let foot = page.classed(body, "foot").first().copied();
    if known != foot.is_some_and(|foot| page.words(foot).contains(&bytes)) {
        return Err("another number of bytes".into());
    }
    if let Some(foot) = foot {
        page.mark(foot);
    }
    Ok(())
}

// ---- the page of a day

// An hour as `day` answers it, or none where its table cannot be read.
struct Named {
    label: String,
    lines: String,
    hour: Option<Hour>,
}

impl Named {
    fn answered(&self) -> Option<&Hour> {
        self.hour.as_ref().filter(|h| h.refused.is_none())
    }

    fn refused(&self) -> Option<Vec<i64>> {
        numbers(&self.lines, "E").pop()
    }

    // from, to and hubs of a border, and its ATC
    fn border(&self, b: usize) -> Option<(Vec<i64>, i64)> {
        let x = self.answered()?.borders.get(b)?;
        Some((x[1..3].iter().chain(&x[4.min(x.len())..]).copied().collect(), numbers(&self.lines, "A")[b][1]))
    }
}

// What stands in a cell, and the MW where the hour has the border that the line is of.
fn cell(n: &Named, b: usize, way: &[i64]) -> (String, Option<i64>) {
    match (n.refused(), n.border(b)) {
        (Some(e), _) => (format!("E {}", e[0]), None),
        (None, None) if n.answered().is_none() => ("X".into(), None),
        (None, None) => ("-".into(), None),
        (None, Some((own, _))) if own != way => ("other".into(), None),
        (None, Some((_, atc))) => (atc.to_string(), Some(atc)),
    }
}

fn day_head(page: &mut Page, day: &[Named], body: usize) -> Told<()> {
    let count = |wanted: &dyn Fn(&Named) -> bool| day.iter().filter(|n| wanted(n)).count();
    let first = &day[0].label;
    let name = if day.len() == 1 { first.clone() } else { format!("{first} to {}", day[day.len() - 1].label) };
    let heading = page.tagged(body, "h1")[0];
    page.says(heading, &name, "the heading")?;
    let title = page.tagged(0, "title")[0];
    page.says(title, &format!("{name}: ATCs"), "the title")?;
    let sub = page.classed(body, "sub")[0];
    let hours = if day.len() == 1 { "one hour".into() } else { format!("{} hours", day.len()) };
    page.says(sub, &format!("Capacities (ATCs) of {hours}"), "the line below the heading")?;
    let mut wanted = vec![format!("{}{}", day.len(), if day.len() == 1 { "hour" } else { "hours" }), format!("{}answered", count(&|n| n.answered().is_some()))];
    for (n, word) in [(count(&|n| n.refused().is_some()), "refused"), (count(&|n| n.hour.is_none()), "not read")] {
        if n > 0 {
            wanted.push(format!("{n}{word}"));
        }
    }
    let borders = day.iter().filter_map(|n| n.answered()).map(|h| h.borders.len()).max().unwrap_or(0);
    if borders > 0 {
        wanted.push(format!("{borders}{}", if borders == 1 { "border" } else { "borders" }));
    }
    let tiles = page.classed(body, "tiles")[0];
    let shown = page.nodes[tiles].children.clone();
    if shown.len() != wanted.len() {
        return Err("another number of tiles of the day".into());
    }
    for (tile, words) in shown.into_iter().zip(&wanted) {
        page.says(tile, words, "a tile of the day")?;
    }
    Ok(())
}

fn strip(page: &mut Page, day: &[Named], body: usize) -> Told<()> {
    let strip = page.only(body, "strip")?;
    let boxes = page.tagged(strip, "a");
    if boxes.len() != day.len() {
        return Err("another number of boxes".into());
    }
    for (k, (n, &at)) in day.iter().zip(&boxes).enumerate() {
        let what = format!("the box of {}", n.label);
        if page.attribute(at, "href") != format!("#h{}", k + 1) {
            return Err(format!("{what}: another link"));
        }
        if (page.attribute(at, "class") == "hb") != n.answered().is_some() {
            return Err(format!("{what}: answered or not"));
        }
        let label = page.tagged(at, "b")[0];
        page.says(label, &n.label, &what)?;
        let mut shape = vec!["path o M.5 .5h83v9h-83z".to_string()];
        let words = match (n.answered(), n.refused()) {
            (Some(h), _) => {
                let (rounds, most) = (numbers(&n.lines, "R")[0][0], h.bound[3]);
                shape = vec!["path w M.5 .5h83v9h-83z".to_string()];
                shape.extend(filled("l", 0, place(rounds, most.max(1), 84), 0, 10));
                let intraday = if h.intraday { ", intraday" } else { "" };
                format!("{rounds} of {most} {}{intraday}", if most < 2 { "round" } else { "rounds" })
            }
            (None, Some(e)) => format!("refused: E {} {} {}", e[0], e[1], e[2]),
            (None, None) => "not read".into(),
        };
        let svg = page.tagged(at, "svg")[0];
        shapes(page, svg, &shape, &what)?;
        let said = page.tagged(at, "span")[0];
        page.says(said, &words, &what)?;
    }
    Ok(())
}

// A step for each hour that has a figure.
fn steps(values: &[Option<i64>]) -> String {
    let most = values.iter().flatten().max().copied().unwrap_or(0).max(1);
    let n = values.len() as i64;
    let mut out = String::new();
    for (k, v) in values.iter().enumerate() {
        let Some(v) = v else { continue };
        let (x, z, y) = (place(k as i64, n, 120), place(k as i64 + 1, n, 120), 17 - place(*v, most, 16));
        let goes_on = k > 0 && values[k - 1].is_some();
        out += &if goes_on { format!("V{y}H{z}") } else { format!("M{x} {y}H{z}") };
    }
    out
}

fn sheet(page: &mut Page, day: &[Named], body: usize) -> Told<()> {
    let borders = day.iter().filter_map(|n| n.answered()).map(|h| h.borders.len()).max().unwrap_or(0);
    let hubs = day.iter().filter_map(|n| n.answered()).any(|h| h.borders.iter().any(|x| x.len() == 6));
    let count = if borders == 0 { 0 } else { day.len().div_ceil(25) };
    let tables = page.classed(body, "sh");
    if tables.len() != count {
        return Err("another number of blocks".into());
    }
    for (block, &table) in tables.iter().enumerate() {
        let size = day.len().div_ceil(count);
        let hours: Vec<usize> = (block * size..day.len().min((block + 1) * size)).collect();
        let head = page.tagged(table, "th");
        let fixed = 2 + hubs as usize + 2 * (block == 0) as usize;
        if head.len() != fixed + hours.len() {
            return Err("another number of columns".into());
        }
        for (&k, &th) in hours.iter().zip(&head[fixed..]) {
            page.says(th, &day[k].label, "a column's heading")?;
            let link = page.tagged(th, "a")[0];
            if page.attribute(link, "href") != format!("#h{}", k + 1) || (page.attribute(th, "class") == "n") != day[k].answered().is_some() {
                return Err(format!("the heading of column {}", day[k].label));
            }
        }
        let body = page.tagged(table, "tbody")[0];
        let lines = page.tagged(body, "tr");
        if lines.len() != borders {
            return Err("another number of borders".into());
        }
        for (b, &tr) in lines.iter().enumerate() {
            let what = format!("the line of border {b}");
            let way = day.iter().find_map(|n| n.border(b)).ok_or("a border that no hour has")?.0;
            let cells: Vec<(String, Option<i64>)> = day.iter().map(|n| cell(n, b, &way)).collect();
            let values: Vec<Option<i64>> = cells.iter().map(|c| c.1).collect();
            let td = page.tagged(tr, "td");
            if td.len() != fixed + hours.len() {
                return Err(format!("{what}: another number of cells"));
            }
            page.says(td[0], &b.to_string(), &what)?;
            page.says(td[1], &format!("{} \u{2192} {}", way[0], way[1]), &what)?;
            if hubs {
                let words = if way.len() == 4 { format!("{} \u{2192} {}", way[2], way[3]) } else { "".into() };
                page.says(td[2], &words, &what)?;
            }
            if block == 0 {
                let svg = page.tagged(td[fixed - 2], "svg")[0];
                shapes(page, svg, &["path g M0 17.5H120".into(), format!("path y {}", steps(&values))], &what)?;
                let most = values.iter().flatten().max().ok_or("a border without a figure")?;
                page.says(td[fixed - 1], &most.to_string(), &what)?;
            }
            for (&k, &at) in hours.iter().zip(&td[fixed..]) {
                page.says(at, &cells[k].0, &format!("border {b} in {}", day[k].label))?;
                let links: Vec<String> = page.tagged(at, "a").iter().map(|&a| page.attribute(a, "href").to_string()).collect();
                let wanted: Vec<String> = cells[k].1.iter().map(|_| format!("#h{}b{b}", k + 1)).collect();
                if links != wanted || (page.attribute(at, "class") == "n") != day[k].answered().is_some() {
                    return Err(format!("border {b} in {}: a link or the look of its cell", day[k].label));
                }
            }
        }
    }
    Ok(())
}

fn compare_day(text: &str, day: &[Named]) -> Told<()> {
    let mut page = opened(text)?;
    let body = page.tagged(0, "body").first().copied().ok_or("no body")?;
    let front = page.only(body, "day")?;
    day_head(&mut page, day, front)?;
    strip(&mut page, day, front)?;
    sheet(&mut page, day, front)?;
    let parts = page.tagged(body, "section");
    if parts.len() != day.len() {
        return Err("another number of parts".into());
    }
    for (k, (n, &at)) in day.iter().zip(&parts).enumerate() {
        page.hour = format!("h{}", k + 1);
        let heading = page.id("")?;
        if page.nodes[at].children.get(1) != Some(&heading) || page.nodes[heading].tag != "h2" {
            return Err(format!("the part of {} does not begin with its heading", n.label));
        }
        page.says(heading, &n.label, "the heading of an hour")?;
        match &n.hour {
            Some(h) => part(&mut page, h, at).map_err(|why| format!("{}: {why}", n.label))?,
            None if page.words(at).contains("Its table cannot be read.") => {}
            None => return Err(format!("{}: not said that it cannot be read", n.label)),
        }
    }
    let foot = *page.classed(body, "foot").last().ok_or("no foot")?;
    if !page.words(foot).contains("Made by keravnoth day --page;") {
        return Err("another foot".into());
    }
    page.mark(foot);
    all_compared(&page, body)
}

fn load_day(programs: &str, marks: Option<&str>, names: &[String]) -> Told<Vec<Named>> {
    let option: Vec<&str> = marks.map_or(vec![], |list| vec!["--marks", list]);
    let words: Vec<&str> = ["day"].into_iter().chain(option).chain(names.iter().map(|n| n.as_str())).collect();
    let lines = ask(programs, &words, "/dev/null")?;
    let mut day = vec![];
    for name in names {
        let file = name.rsplit('/').next().unwrap();
        let label = file.rfind('.').filter(|&dot| dot > 0).map_or(file, |dot| &file[..dot]).to_string();
        let own: Vec<&str> = lines.lines().filter_map(|l| l.strip_prefix(&label)?.strip_prefix('\t')).collect();
        let hour = if own == ["X"] { None } else { Some(load(programs, name, marks, None)?) };
        day.push(Named { label, lines: own.join("\n"), hour });
    }
    Ok(day)
}

// ---- what every page has

fn opened(text: &str) -> Told<Page> {
    if !text.bytes().all(|b| b == b'\n' || (32..127).contains(&b)) {
        return Err("a byte that is not plain ASCII".into());
    }
    if text.contains("http") || text.contains("<script") || text.replace("url(#over)", "").contains("url(") {
        return Err("something from outside".into());
    }
    let page = read(text)?;
    for k in 0..page.nodes.len() {
        let to = page.attribute(k, "href");
        if !to.is_empty() && !to.strip_prefix('#').is_some_and(|id| page.ids.contains_key(id)) {
            return Err(format!("the link {to} leads nowhere"));
        }
    }
    Ok(page)
}

fn all_compared(page: &Page, body: usize) -> Told<()> {
    for k in page.below(body) {
        let n = &page.nodes[k];
        let constant = ["raised in the rounds; every border starts at 0", "Line: the border over the day, 0 at the bottom and its most at the top; no line where an hour has no figure.", "E 7: the hour is refused, and the number says why."];
        if n.tag == "#" && !page.seen.contains(&k) && n.text.bytes().any(|b| b.is_ascii_digit()) && !constant.contains(&n.text.as_str()) {
            return Err(format!("nothing was compared with '{}'", n.text.trim()));
        }
    }
    Ok(())
}

fn compare(text: &str, h: &Hour) -> Told<()> {
    let mut page = opened(text)?;
    let body = page.tagged(0, "body").first().copied().ok_or("no body")?;
    let heading = page.tagged(body, "h1").first().copied().ok_or("no heading")?;
    page.mark(heading);
    part(&mut page, h, body)?;
    all_compared(&page, body)
}

// Each of these changes must be seen: a figure, a bar, a link, a tag, a quote, something from outside.
fn spoilt(text: &str, passes: &dyn Fn(&str) -> Told<()>) -> Told<usize> {
    let mut tried = 0;
    let mut try_one = |what: &str, spoilt: String| -> Told<()> {
        if spoilt == text {
            return Ok(());
        }
        tried += 1;
        match passes(&spoilt) {
            Ok(()) => Err(format!("a spoilt page passes: {what}")),
            Err(_) => Ok(()),
        }
    };
    for (from, to) in [("</td>", "</tr>"), ("<p ", "<p x=y "), ("href=\"#r", "href=\"#x"), ("</body>", "<script></script></body>"), ("</body>", "<p>http://</p></body>"), ("</h1>", "\u{e9}</h1>"), ("class=\"tiles\"", "class=tiles"), ("</body>", "<p>7</p></body>"), ("<code>E ", "<code>E 9"), ("<b>", "<i>"), ("href=\"#h1\"", "href=\"#h2\""), ("#h2b0", "#h1b0"), ("class=\"hb x\"", "class=\"hb\""), ("<td class=\"n x\">X", "<td class=\"n x\">-"), ("V", "M0 ")] {
        try_one(&format!("{from} {to}"), text.replacen(from, to, 1))?;
    }
    // every digit of the body, one at a time, but those of styles, of sizes that never change, and of what comes from outside
    let bytes = text.as_bytes();
    let begin = text.find("<div class=\"tiles\">").unwrap_or(text.len());
    for k in begin..bytes.len() {
        let constant = ["<span>E ", "the day, ", "width=", "height=", "viewBox=", " y=\"", "&#", "<h2", "</h2", "<h3", "</h3", "0.05000", "&lt;0.1 ", "than 0.1", "under 5%", "Under 5%", "dx=\""];
        let from = text[..k].rfind(|c: char| !(c.is_ascii_digit() || c == '.')).map_or(0, |p| p + 1);
        let before = &text[from.saturating_sub(9)..from];
        if !bytes[k].is_ascii_digit() || k % 7 != 0 || constant.iter().any(|c| before.ends_with(c)) {
            continue;
        }
        let inside = text[..k].rfind(['<', '>']).map_or(false, |p| bytes[p] == b'<');
        if inside && !text[..k].ends_with(|c: char| "MHV".contains(c)) {
            continue;
        }
        let line = text[..k].rfind("class=\"line\"");
        let in_foot = text[..k].rfind("class=\"foot\"").is_some_and(|p| !text[p..k].contains("</p>"));
        if in_foot && !text[..from].ends_with("rom a table of ") {
            continue;
        }
        if line.is_some_and(|p| !text[p..k].contains("</p>")) || text[..k].rfind("<div class=\"no\">").is_some_and(|p| !text[p..k].contains("</div>")) {
            continue;
        }
        let digit = if bytes[k] == b'9' { "8" } else { "9" };
        try_one(&format!("the digit at byte {k}: ..{}", &text[k.saturating_sub(30)..k + 1]), format!("{}{digit}{}", &text[..k], &text[k + 1..]))?;
    }
    Ok(tried)
}

fn main() {
    let mut words: Vec<String> = std::env::args().skip(1).collect();
    let mut first = |word: &str| {
        let there = words.first().is_some_and(|w| w == word);
        if there {
            words.remove(0);
        }
        there
    };
    let (spoil, day) = (first("--spoilt"), first("day"));
    if words.len() < 3 + day as usize || words.len() > 5 && !day {
        eprintln!("usage: pages [--spoilt] PROGRAMS PAGE TABLE [MARKS [SHEET]]\n       pages [--spoilt] day PROGRAMS PAGE MARKS TABLE..");
        std::process::exit(2);
    }
    let said = if day {
        load_day(&words[0], some_marks(words.get(2)), &words[3..]).and_then(|day| run(&words[1], spoil, &|text| compare_day(text, &day)))
    } else {
        load(&words[0], &words[2], some_marks(words.get(3)), words.get(4).map(|w| w.as_str())).and_then(|h| run(&words[1], spoil, &|text| compare(text, &h)))
    };
    let of = if day { format!("a day of {} from {}", words.len() - 3, words[3]) } else { words[2..].join(" ") };
    match said {
        Ok(said) => println!("ok      {of}: {said}"),
        Err(why) => {
            println!("FAILED  {of}: {why}");
            std::process::exit(1);
        }
    }
}

fn some_marks(word: Option<&String>) -> Option<&str> {
    word.map(|w| w.as_str()).filter(|w| *w != "-")
}

fn run(page: &str, spoil: bool, passes: &dyn Fn(&str) -> Told<()>) -> Told<String> {
    let text = std::fs::read_to_string(page).map_err(|e| e.to_string())?;
    passes(&text)?;
    if spoil {
        return Ok(format!("{} spoilt pages are seen", spoilt(&text, passes)?));
    }
    Ok(format!("{} bytes", text.len()))
}
