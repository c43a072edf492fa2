//! What a colour says.

/// Whether a part of a picture is on the way, or where something is lost.
#[derive(Clone, Copy, Debug, PartialEq, Eq)]
pub enum Tone {
    /// Blue.
    Taken,
    /// Red.
    Lost,
}

impl Tone {
    /// The colour of lines and letters.
    pub const fn line(self) -> &'static str {
        match self {
            Tone::Taken => "#1f5fbf",
            Tone::Lost => "#c62828",
        }
    }

    /// The colour inside a state.
    pub const fn fill(self) -> &'static str {
        match self {
            Tone::Taken => "#dbe8fb",
            Tone::Lost => "#fbdede",
        }
    }
}
