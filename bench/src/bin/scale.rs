//! The whole machine in one process, over the number of ranks: a rank's time for each step, what is sent and what the least
//! is. Prints tables, and writes the times as a picture where a file is named.
#[path = "../../../tests/suite/src/library.rs"]
#[allow(dead_code)]
mod library;
#[path = "../../../tests/suite/src/machine.rs"]
mod machine;

use machine::{mesh, repartition, Links, Sums};

/// A line of the picture: its name, its colour, and the microseconds of a rank for each number of ranks.
type Line = (String, &'static str, Vec<(usize, f64)>);

/// The sums of the run that took the least, of so many that at least 256 ranks were timed.
fn shortest(mesh: &[u8], ranks: usize) -> Sums {
    let runs = (0..(256 / ranks).max(1) as u64).map(|seed| repartition(mesh, ranks, 2, seed));
    let time = |sums: &Sums| sums.build + sums.deliver + sums.close;
    runs.min_by(|a, b| time(a).total_cmp(&time(b))).unwrap()
}

fn row(ranks: usize, trees: usize, sums: &Sums) -> f64 {
    let each = |nanoseconds: f64| nanoseconds / 1e3 / ranks as f64;
    let [build, deliver, close] = [sums.build, sums.deliver, sums.close].map(each);
    let all = build + deliver + close;
    let share = trees as f64 / ranks as f64;
    println!(
        "| {ranks} | {share} | {build:.1} | {deliver:.1} | {close:.1} | {all:.1} | {:.2} | {} | {} | {:.1} | {:.3} | {:.1} | {:.1} |",
        share / all,
        sums.messages,
        sums.least_messages,
        sums.bytes as f64 / 1e6,
        sums.bytes as f64 / sums.least_bytes as f64,
        sums.largest_part as f64 / 1024.0,
        sums.largest_area as f64 / 1024.0,
    );
    all
}

/// One table: K as a function of P.
fn table(name: &str, links: Links, most: u32, power_of: impl Fn(u32) -> u32) -> Vec<(usize, f64)> {
    println!("\n{name}\n");
    println!("| P | trees a rank | build, µs | open and deliver, µs | close, µs | all, µs | trees a µs | messages | least | MB | ratio to the least | largest part, KiB | largest area, KiB |");
    println!("|---:|---:|---:|---:|---:|---:|---:|---:|---:|---:|---:|---:|---:|");
    let mut made = (0, Vec::new());
    (4..=most)
        .step_by(2)
        .map(|power| {
            let (ranks, trees) = (1 << power, power_of(power));
            if made.0 != trees {
                made = (trees, mesh(links, trees));
            }
            (ranks, row(ranks, 1 << trees, &shortest(&made.1, ranks)))
        })
        .collect()
}

/// Times of a rank over the number of ranks, both by powers of ten.
fn picture(lines: &[Line]) -> String {
    let (width, height, left, below) = (640.0, 400.0, 60.0, 40.0);
    let x = |ranks: usize| left + ((ranks as f64).log2() - 4.0) / 10.0 * (width - left - 180.0);
    let y = |time: f64| height - below - (time.log10() - 1.0) / 5.0 * (height - below - 20.0);
    let mut svg = format!("<svg xmlns=\"http://www.w3.org/2000/svg\" viewBox=\"0 0 {width} {height}\" font-family=\"sans-serif\" font-size=\"12\">\n");
    svg += "<title>Microseconds of a rank for a repartition, over the number of ranks</title>\n";
    svg += &format!("<rect width=\"{width}\" height=\"{height}\" fill=\"white\"/>\n");
    for power in (4..=14).step_by(2) {
        let (at, ranks) = (x(1 << power), 1 << power);
        svg +=
            &format!("<line x1=\"{at:.1}\" y1=\"20\" x2=\"{at:.1}\" y2=\"{:.1}\" stroke=\"#ddd\"/>\n", height - below);
        svg +=
            &format!("<text x=\"{at:.1}\" y=\"{:.1}\" text-anchor=\"middle\">{ranks}</text>\n", height - below + 16.0);
    }
    for power in 1..=6 {
        let at = y(10f64.powi(power));
        svg +=
            &format!("<line x1=\"{left}\" y1=\"{at:.1}\" x2=\"{:.1}\" y2=\"{at:.1}\" stroke=\"#ddd\"/>\n", x(1 << 14));
        svg += &format!(
            "<text x=\"{:.1}\" y=\"{:.1}\" text-anchor=\"end\">10{}</text>\n",
            left - 6.0,
            at + 4.0,
            ["¹", "²", "³", "⁴", "⁵", "⁶"][power as usize - 1]
        );
    }
    svg += &format!("<text x=\"{left}\" y=\"12\">microseconds of a rank</text>\n");
    svg += &format!("<text x=\"{:.1}\" y=\"{:.1}\" text-anchor=\"middle\">ranks</text>\n", x(512), height - 6.0);
    for (place, (name, colour, points)) in lines.iter().enumerate() {
        let path: Vec<String> = points.iter().map(|&(ranks, time)| format!("{:.1},{:.1}", x(ranks), y(time))).collect();
        svg += &format!(
            "<polyline points=\"{}\" fill=\"none\" stroke=\"{colour}\" stroke-width=\"2\"/>\n",
            path.join(" ")
        );
        for &(ranks, time) in points {
            svg += &format!("<circle cx=\"{:.1}\" cy=\"{:.1}\" r=\"3\" fill=\"{colour}\"/>\n", x(ranks), y(time));
        }
        let at = 30.0 + 18.0 * place as f64;
        svg += &format!("<text x=\"{:.1}\" y=\"{at:.1}\" fill=\"{colour}\">{name}</text>\n", x(1 << 14) + 12.0);
    }
    svg + "</svg>\n"
}

fn main() {
    let quick = std::env::args().any(|word| word == "--quick");
    let file = std::env::args().skip(1).find(|word| !word.starts_with("--"));
    let (most, largest) = if quick { (10, 16) } else { (14, 20) };
    let mut lines: Vec<Line> = Vec::new();
    for (links, what, colours) in
        [(Links::Brick, "a brick", ["#1b6ca8", "#0a3d62"]), (Links::Random, "random links", ["#d35400", "#7b241c"])]
    {
        let weak = table(&format!("64 trees a rank, {what}"), links, most, |power| power + 6);
        lines.push((format!("64 trees a rank, {what}"), colours[0], weak));
        let strong = table(&format!("2^{largest} trees, {what}"), links, most, |_| largest);
        lines.push((format!("2^{largest} trees, {what}"), colours[1], strong));
    }
    if let Some(file) = file {
        std::fs::write(&file, picture(&lines)).unwrap_or_else(|error| panic!("{file}: {error}"));
    }
}
