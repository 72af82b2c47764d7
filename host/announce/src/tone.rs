//! The announcement of a console that has no recording: two notes, again and again.
use crate::form::Form;

/// Frames of signed 16 bits, the same in each channel.
pub fn of(seconds: u32, form: Form) -> Vec<u8> {
    let frames = u64::from(seconds) * u64::from(form.rate.hz());
    let mut bytes = Vec::new();
    for frame in 0..frames {
        extend(&mut bytes, frame, form);
    }
    bytes
}

/// One of these frames.
pub fn extend(bytes: &mut Vec<u8>, frame: u64, form: Form) {
    let Form { channels, rate, .. } = form;
    let time = frame as f64 / f64::from(rate.hz());
    let note = if time.fract() < 0.5 { 880.0 } else { 660.0 };
    let sample = (wave((time * note).fract()) * 8000.0) as i16;
    for _ in 0..channels {
        bytes.extend(sample.to_le_bytes());
    }
}

/// A sine over one turn of the phase, as Bhaskara drew it: by the four operations, whose results, and so the tone's sha256, are the same
/// on every machine.
fn wave(phase: f64) -> f64 {
    let half = (phase * 2.0).fract();
    let bow = half * (1.0 - half);
    let height = 16.0 * bow / (5.0 - 4.0 * bow);
    if phase < 0.5 { height } else { -height }
}
