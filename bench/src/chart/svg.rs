//! The few parts of a picture.

/// The colours: for text, for what stands back, and for the two kinds of things that are compared.
pub const INK: &str = "#222222";
pub const GREY: &str = "#8a8f98";
pub const PALE: &str = "#e3e5e8";
pub const BLUE: &str = "#4a6d8c";
pub const RUST: &str = "#a8643c";

/// A picture that is being drawn.
pub struct Svg {
    body: String,
}

/// Where a text stands to its point.
#[derive(Clone, Copy)]
pub enum Anchor {
    Start,
    Middle,
    End,
}

impl Svg {
    /// An empty picture.
    pub fn new() -> Self {
        let body = String::new();
        Self { body }
    }

    /// A line of text, on its base line.
    pub fn text(&mut self, at: (f64, f64), anchor: Anchor, size: u32, colour: &str, text: &str) {
        let anchor = match anchor {
            Anchor::Start => "start",
            Anchor::Middle => "middle",
            Anchor::End => "end",
        };
        let text = text.replace('&', "&amp;").replace('<', "&lt;");
        self.body += &format!(
            "<text x=\"{:.1}\" y=\"{:.1}\" text-anchor=\"{anchor}\" font-size=\"{size}\" fill=\"{colour}\">{text}</text>\n",
            at.0, at.1
        );
    }

    /// A line of text that runs upwards, its middle at the point.
    pub fn upwards(&mut self, at: (f64, f64), size: u32, colour: &str, text: &str) {
        let (x, y) = at;
        self.body += &format!("<g transform=\"translate({x:.1} {y:.1}) rotate(-90)\">");
        self.text((0.0, 0.0), Anchor::Middle, size, colour, text);
        self.body += "</g>\n";
    }

    /// A straight line.
    pub fn line(&mut self, from: (f64, f64), to: (f64, f64), width: f64, colour: &str) {
        self.path(&[from, to], width, colour);
    }

    /// Straight lines from point to point.
    pub fn path(&mut self, points: &[(f64, f64)], width: f64, colour: &str) {
        let points: Vec<String> = points
            .iter()
            .map(|(x, y)| format!("{x:.1},{y:.1}"))
            .collect();
        self.body += &format!(
            "<polyline points=\"{}\" fill=\"none\" stroke=\"{colour}\" stroke-width=\"{width}\"/>\n",
            points.join(" ")
        );
    }

    /// A filled box: its upper left corner, and its width and height.
    pub fn block(&mut self, at: (f64, f64), size: (f64, f64), colour: &str) {
        self.body += &format!(
            "<rect x=\"{:.1}\" y=\"{:.1}\" width=\"{:.1}\" height=\"{:.1}\" fill=\"{colour}\"/>\n",
            at.0, at.1, size.0, size.1
        );
    }

    /// The file.
    pub fn finished(self, width: f64, height: f64) -> String {
        format!(
            "<svg xmlns=\"http://www.w3.org/2000/svg\" width=\"{width}\" height=\"{height}\" \
             viewBox=\"0 0 {width} {height}\" font-family=\"sans-serif\">\n\
             <rect width=\"{width}\" height=\"{height}\" fill=\"#ffffff\"/>\n{}</svg>\n",
            self.body
        )
    }
}
