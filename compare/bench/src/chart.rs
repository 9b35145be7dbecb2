//! A line chart as SVG.

use std::fmt::Write;

pub struct Series {
    pub name: String,
    pub points: Vec<(f64, f64)>,
    pub dashed: bool,
}

pub struct Chart {
    title: String,
    x: String,
    y: String,
    series: Vec<Series>,
}

const COLOURS: [&str; 3] = ["#1b6ca8", "#c8553d", "#2a7f4f"];
const LEFT: f64 = 80.0;
const RIGHT: f64 = 590.0;
const TOP: f64 = 40.0;
const BOTTOM: f64 = 340.0;

impl Chart {
    pub fn new(title: &str, x: &str, y: &str) -> Self {
        Self {
            title: title.into(),
            x: x.into(),
            y: y.into(),
            series: Vec::new(),
        }
    }

    pub fn add(&mut self, series: Series) {
        self.series.push(series);
    }

    /// Series come in pairs of one colour, the second dashed. `marks` puts a ring around the points of the first of each pair, so that
    /// lines that cover each other are both seen.
    pub fn svg(&self, marks: bool) -> String {
        let all: Vec<(f64, f64)> = self.series.iter().flat_map(|s| s.points.clone()).collect();
        let (x0, x1) = (
            all.iter().map(|p| p.0).fold(f64::MAX, f64::min),
            all.iter().map(|p| p.0).fold(f64::MIN, f64::max),
        );
        let top = all.iter().map(|p| p.1).fold(0.0, f64::max);
        let unit = 10f64.powf(top.log10().floor());
        let step = [0.1, 0.2, 0.25, 0.5, 1.0, 2.0]
            .into_iter()
            .map(|m| m * unit)
            .find(|s| top / s <= 6.0)
            .unwrap_or(unit);
        let high = (top / step).ceil() * step;
        let px = |x: f64| LEFT + (x - x0) / (x1 - x0) * (RIGHT - LEFT);
        let py = |y: f64| BOTTOM - y / high * (BOTTOM - TOP);
        let mut s = String::new();
        let _ = writeln!(
            s,
            r##"<svg xmlns="http://www.w3.org/2000/svg" width="820" height="400" viewBox="0 0 820 400" font-family="sans-serif" font-size="12" role="img" aria-label="{}">
<rect width="820" height="400" fill="#ffffff"/>
<text x="{LEFT}" y="22" font-size="15" fill="#222">{}</text>"##,
            self.title, self.title
        );
        let mut y = 0.0;
        while y <= high * 1.0001 {
            let label = if high < 10.0 {
                format!("{y:.2}")
            } else {
                format!("{y:.0}")
            };
            let _ = writeln!(
                s,
                r##"<line x1="{LEFT}" y1="{0:.1}" x2="{RIGHT}" y2="{0:.1}" stroke="#ddd"/><text x="{1}" y="{2:.1}" text-anchor="end" fill="#444">{label}</text>"##,
                py(y),
                LEFT - 8.0,
                py(y) + 4.0
            );
            y += step;
        }
        let mut ticks: Vec<f64> = self.series[0].points.iter().map(|p| p.0).collect();
        if ticks.len() > 8 {
            ticks = ticks.into_iter().step_by(2).collect();
        }
        for t in ticks {
            let _ = writeln!(
                s,
                r##"<text x="{:.1}" y="{}" text-anchor="middle" fill="#444">{t}</text>"##,
                px(t),
                BOTTOM + 18.0
            );
        }
        let _ = writeln!(
            s,
            r##"<text x="{}" y="{}" text-anchor="middle" fill="#222">{}</text>
<text transform="translate(18 {}) rotate(-90)" text-anchor="middle" fill="#222">{}</text>"##,
            (LEFT + RIGHT) / 2.0,
            BOTTOM + 42.0,
            self.x,
            (TOP + BOTTOM) / 2.0,
            self.y
        );
        for (i, series) in self.series.iter().enumerate() {
            let colour = COLOURS[i / 2 % COLOURS.len()];
            let points: Vec<String> = series
                .points
                .iter()
                .map(|p| format!("{:.1},{:.1}", px(p.0), py(p.1)))
                .collect();
            let dash = if series.dashed {
                r#" stroke-dasharray="6 4""#
            } else {
                ""
            };
            let _ = writeln!(
                s,
                r##"<polyline points="{}" fill="none" stroke="{colour}" stroke-width="2"{dash}/>"##,
                points.join(" ")
            );
            for p in &series.points {
                let (r, fill) = if marks && !series.dashed {
                    (6.0, "none")
                } else {
                    (2.5, colour)
                };
                let _ = writeln!(
                    s,
                    r##"<circle cx="{:.1}" cy="{:.1}" r="{r}" fill="{fill}" stroke="{colour}"/>"##,
                    px(p.0),
                    py(p.1)
                );
            }
            let at = TOP + 14.0 + 22.0 * i as f64;
            let _ = writeln!(
                s,
                r##"<line x1="{0}" y1="{at}" x2="{1}" y2="{at}" stroke="{colour}" stroke-width="2"{dash}/><text x="{2}" y="{3}" fill="#222">{4}</text>"##,
                RIGHT + 20.0,
                RIGHT + 50.0,
                RIGHT + 58.0,
                at + 4.0,
                series.name
            );
        }
        s + "</svg>\n"
    }
}
