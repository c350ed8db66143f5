//! What scores are called.

use second::random::Random;

const SUBJECTS: [&str; 40] = [
    "main-lift",
    "flying-carpet",
    "finale",
    "trapeze",
    "double-trapeze",
    "high-wire",
    "cloud-swing",
    "moon-swing",
    "aerial-hoop",
    "silk-ribbons",
    "tiger-cage",
    "clown-car",
    "ring-curtain",
    "chandelier",
    "human-cannon",
    "russian-bar",
    "net-lift",
    "band-stand",
    "opening",
    "parade",
    "interval",
    "star-drop",
    "wheel-of-death",
    "bungee-quartet",
    "floating-piano",
    "snow-bag",
    "dove-release",
    "pirate-ship",
    "hot-air-balloon",
    "spanish-web",
    "globe-of-steel",
    "angel-flight",
    "magic-box",
    "lion-pedestals",
    "water-curtain",
    "bird-cage",
    "rope-ladder",
    "pendulum",
    "giant-swing",
    "curtain-call",
];

const VARIANTS: [&str; 10] =
    ["short", "matinee", "rehearsal", "winter", "summer", "new-rig", "small-tent", "big-tent", "second-cast", "gala"];

const TOURS: [&str; 8] = [
    "season-opener",
    "gala-night",
    "winter-tour",
    "grand-tour",
    "anniversary-show",
    "two-hour-show",
    "festival-show",
    "all-winches",
];

const COUNTS: [&str; 8] = ["one", "two", "three", "four", "five", "six", "seven", "eight"];

pub fn of_show(random: &mut Random, winches: u32) -> String {
    let subject = random.pick(&SUBJECTS);
    match random.below(4) {
        0 => format!("{subject}-{}", rigged_with(winches)),
        1 => format!("{subject}-{}", random.pick(&VARIANTS)),
        _ => subject.to_string(),
    }
}

pub fn of_tour(random: &mut Random) -> String {
    random.pick(&TOURS).to_string()
}

fn rigged_with(winches: u32) -> String {
    let plural = if winches == 1 { "" } else { "es" };
    format!("{}-winch{plural}", COUNTS[winches as usize - 1])
}
