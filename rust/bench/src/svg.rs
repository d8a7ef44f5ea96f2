//! The few marks of which the plot is made.

use std::fmt::Write;
use timing::Spread;

/// A logarithmic axis from left to right.
pub struct Axis {
    pub low: f64,
    pub high: f64,
    pub left: f64,
    pub right: f64,
}

impl Axis {
    /// Where a number stands.
    pub fn at(&self, n: f64) -> f64 {
        let part = (n / self.low).ln() / (self.high / self.low).ln();
        self.left + part * (self.right - self.left)
    }

    fn shows(&self, n: f64) -> bool {
        (self.low..=self.high).contains(&n)
    }
}

#[derive(Default)]
pub struct Svg {
    marks: String,
}

/// Text with the three signs that XML keeps for itself written out.
fn escaped(text: &str) -> String {
    let text = text.replace('&', "&amp;");
    text.replace('<', "&lt;").replace('>', "&gt;")
}

impl Svg {
    fn mark(&mut self, mark: std::fmt::Arguments<'_>) {
        let written = writeln!(self.marks, "{mark}");
        written.expect("a string takes all");
    }

    fn text(&mut self, (x, y): (f64, f64), look: &str, text: &str) {
        let text = escaped(text);
        self.mark(format_args!(
            "<text x=\"{x:.1}\" y=\"{y:.1}\" {look}>{text}</text>"
        ));
    }

    fn upright(&mut self, x: f64, (from, to): (f64, f64), look: &str) {
        self.mark(format_args!(
            "<line x1=\"{x:.1}\" y1=\"{from:.1}\" x2=\"{x:.1}\" y2=\"{to:.1}\" {look}/>"
        ));
    }

    pub fn title(&mut self, y: f64, text: &str) {
        self.text((10.0, y), "font-size=\"14\" font-weight=\"bold\"", text);
    }

    pub fn heading(&mut self, y: f64, text: &str) {
        self.text((10.0, y), "font-weight=\"bold\"", text);
    }

    /// A row's name, which ends at `x`.
    pub fn name(&mut self, x: f64, y: f64, text: &str) {
        self.text((x, y), "text-anchor=\"end\"", text);
    }

    pub fn legend(&mut self, x: f64, y: f64, text: &str, colour: &str) {
        self.mark(format_args!(
            "<circle cx=\"{x:.1}\" cy=\"{:.1}\" r=\"4\" fill=\"{colour}\"/>",
            y - 4.0
        ));
        self.text((x + 9.0, y), "", text);
    }

    /// Thin lines with their numbers above, where the axis shows them; 1 is a limit's to draw.
    pub fn ticks(
        &mut self,
        axis: &Axis,
        ticks: &[f64],
        (first, last): (f64, f64),
        text: impl Fn(f64) -> String,
    ) {
        for tick in ticks
            .iter()
            .copied()
            .filter(|n| axis.shows(*n) && *n != 1.0)
        {
            let x = axis.at(tick);
            self.upright(x, (first, last), "stroke=\"#dddddd\"");
            self.text(
                (x, first - 4.0),
                "text-anchor=\"middle\" fill=\"#777777\"",
                &text(tick),
            );
        }
    }

    /// A strong line; its number stands at the side that the anchor says.
    pub fn limit(&mut self, x: f64, (first, last): (f64, f64), text: &str, anchor: &str) {
        self.upright(
            x,
            (first, last),
            "stroke=\"#222222\" stroke-dasharray=\"4 2\"",
        );
        let look = format!("text-anchor=\"{anchor}\" font-weight=\"bold\"");
        self.text((x, first - 4.0), &look, text);
    }

    /// The median as a dot on a line from the lowest to the highest.
    pub fn dot(&mut self, axis: &Axis, y: f64, spread: Spread, colour: &str) {
        let [low, median, high] = [spread.low, spread.median, spread.high].map(|n| axis.at(n));
        self.mark(format_args!(
            "<line x1=\"{low:.1}\" y1=\"{y:.1}\" x2=\"{high:.1}\" y2=\"{y:.1}\" stroke=\"{colour}\" stroke-width=\"2\"/>"
        ));
        self.mark(format_args!(
            "<circle cx=\"{median:.1}\" cy=\"{y:.1}\" r=\"3.5\" fill=\"{colour}\"/>"
        ));
    }

    /// The whole picture, on white.
    pub fn whole(self, width: f64, height: f64) -> String {
        format!(
            "<svg xmlns=\"http://www.w3.org/2000/svg\" width=\"{width:.0}\" height=\"{height:.0}\" \
             viewBox=\"0 0 {width:.0} {height:.0}\" font-family=\"sans-serif\" font-size=\"11\">\n\
             <rect width=\"100%\" height=\"100%\" fill=\"white\"/>\n{}</svg>\n",
            self.marks
        )
    }
}
