//! A small plot of cost over keys, as SVG.

/// A line of the plot: its name, its colour, and milliseconds at a number of keys.
pub struct Line {
    pub name: &'static str,
    pub colour: &'static str,
    pub points: Vec<(f64, f64)>,
}

const WIDTH: f64 = 640.0;
const HEIGHT: f64 = 320.0;
const LEFT: f64 = 60.0;
const BELOW: f64 = 40.0;

/// The lines from the origin on, over the largest point of all.
pub fn plot(title: &str, lines: &[Line]) -> String {
    let all = || lines.iter().flat_map(|l| &l.points);
    let (most_keys, most) = all().fold((1.0f64, 1.0f64), |(k, m), p| (k.max(p.0), m.max(p.1)));
    let x = |keys: f64| LEFT + keys / most_keys * (WIDTH - LEFT - 120.0);
    let y = |n: f64| HEIGHT - BELOW - n / most * (HEIGHT - BELOW - 40.0);
    let mut out = format!(
        "<svg xmlns=\"http://www.w3.org/2000/svg\" viewBox=\"0 0 {WIDTH} {HEIGHT}\" font-family=\"sans-serif\" font-size=\"12\">\n"
    );
    out += &format!("<text x=\"{LEFT}\" y=\"20\">{title}</text>\n");
    let (right, floor) = (x(most_keys), y(0.0));
    out += &format!("<path d=\"M{LEFT} 40V{floor}H{right}\" fill=\"none\" stroke=\"#888\"/>\n");
    for part in [0.25, 0.5, 0.75, 1.0] {
        let (keys, n) = (part * most_keys, part * most);
        out += &format!("<text x=\"{:.0}\" y=\"{:.0}\" text-anchor=\"middle\">{keys:.0}</text>\n", x(keys), floor + 18.0);
        out += &format!("<text x=\"{:.0}\" y=\"{:.0}\" text-anchor=\"end\">{n:.0} ms</text>\n", LEFT - 6.0, y(n) + 4.0);
    }
    for line in lines {
        let points: Vec<String> = line.points.iter().map(|p| format!("{:.1},{:.1}", x(p.0), y(p.1))).collect();
        let colour = line.colour;
        out += &format!("<polyline points=\"{}\" fill=\"none\" stroke=\"{colour}\" stroke-width=\"2\"/>\n", points.join(" "));
        if let Some(last) = line.points.last() {
            out += &format!(
                "<text x=\"{:.0}\" y=\"{:.0}\" fill=\"{colour}\">{}</text>\n",
                x(last.0) + 6.0,
                y(last.1) + 4.0,
                line.name
            );
        }
    }
    out + "</svg>\n"
}
