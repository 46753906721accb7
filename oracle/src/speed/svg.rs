//! The elements of a drawing, as plain SVG.

/// Where a text stands: it begins, is centred or ends at its place.
#[derive(Clone, Copy)]
pub enum Anchor {
    Start,
    Middle,
    End,
}

impl Anchor {
    /// The name that SVG has for it.
    fn name(self) -> &'static str {
        match self {
            Anchor::Start => "start",
            Anchor::Middle => "middle",
            Anchor::End => "end",
        }
    }
}

/// A drawing of a width and a height, element after element.
pub struct Svg {
    text: String,
}

impl Svg {
    /// A white sheet, so that a dark viewer shows the same.
    pub fn new(width: f64, height: f64) -> Svg {
        let mut svg = Svg {
            text: format!(
                "<svg xmlns=\"http://www.w3.org/2000/svg\" viewBox=\"0 0 {width} {height}\" width=\"{width}\" \
                 height=\"{height}\" font-family=\"sans-serif\">\n"
            ),
        };
        svg.rectangle((0.0, 0.0), (width, height), "#ffffff");
        svg
    }

    /// A filled rectangle from its upper left corner.
    pub fn rectangle(&mut self, (x, y): (f64, f64), (width, height): (f64, f64), fill: &str) {
        self.push(format!(
            "<rect x=\"{x:.1}\" y=\"{y:.1}\" width=\"{width:.1}\" height=\"{height:.1}\" fill=\"{fill}\"/>"
        ));
    }

    /// A filled dot.
    pub fn dot(&mut self, (x, y): (f64, f64), fill: &str) {
        self.push(format!(
            "<circle cx=\"{x:.1}\" cy=\"{y:.1}\" r=\"3\" fill=\"{fill}\"/>"
        ));
    }

    /// A line through some points.
    pub fn line(&mut self, points: &[(f64, f64)], stroke: Stroke) {
        let points: Vec<String> = points
            .iter()
            .map(|(x, y)| format!("{x:.1},{y:.1}"))
            .collect();
        let dashes = if stroke.is_dashed {
            " stroke-dasharray=\"6 4\""
        } else {
            ""
        };
        self.push(format!(
            "<polyline points=\"{}\" fill=\"none\" stroke=\"{}\" stroke-width=\"{}\"{dashes}/>",
            points.join(" "),
            stroke.colour,
            stroke.width
        ));
    }

    /// A text of a size in pixels, its foot at a height.
    pub fn text(&mut self, (x, y): (f64, f64), anchor: Anchor, size: u32, text: &str) {
        self.push(format!(
            "<text x=\"{x:.1}\" y=\"{y:.1}\" text-anchor=\"{}\" font-size=\"{size}\" fill=\"#222222\">{}</text>",
            anchor.name(),
            escaped(text)
        ));
    }

    /// Adds an element.
    fn push(&mut self, element: String) {
        self.text.push_str(&element);
        self.text.push('\n');
    }

    /// The whole file.
    pub fn finished(self) -> String {
        self.text + "</svg>\n"
    }
}

/// How a line is drawn.
#[derive(Clone, Copy)]
pub struct Stroke {
    pub colour: &'static str,
    pub width: u32,
    pub is_dashed: bool,
}

/// A line that is not interrupted.
pub fn solid(colour: &'static str, width: u32) -> Stroke {
    Stroke {
        colour,
        width,
        is_dashed: false,
    }
}

/// A line of dashes.
pub fn dashed(colour: &'static str, width: u32) -> Stroke {
    Stroke {
        colour,
        width,
        is_dashed: true,
    }
}

/// A text without the characters that SVG takes as its own.
fn escaped(text: &str) -> String {
    text.replace('&', "&amp;").replace('<', "&lt;")
}

#[cfg(test)]
mod tests {
    use super::*;

    #[test]
    fn a_text_is_no_element() {
        let mut svg = Svg::new(10.0, 10.0);
        svg.text((1.0, 2.0), Anchor::End, 9, "a<b & c");
        assert!(svg.finished().contains(">a&lt;b &amp; c</text>"));
    }
}
