//! The audio loop, the strict feed, the refusal told, the announcement from a file, the loop that does not wait, the recording, the transfer that writes a trace and the device of VirtIO 1.3 of docs/HOST.md run, and the page shows the texts that ran.
#[path = "../examples/audio_loop.rs"]
mod audio_loop;
#[path = "../examples/go_on.rs"]
mod go_on;
#[path = "../examples/record.rs"]
mod record;
#[path = "../examples/refused.rs"]
mod refused;
#[path = "../examples/strict_mode.rs"]
mod strict_mode;
#[path = "../examples/traced.rs"]
mod traced;
#[path = "../examples/versions.rs"]
mod versions;
#[path = "../examples/wave_file.rs"]
mod wave_file;

#[test]
fn the_audio_loop_speaks() {
    assert_eq!(audio_loop::main(), Ok(()));
}

#[test]
fn the_strict_feed_believes_what_was_written() {
    assert_eq!(strict_mode::main(), Ok(()));
}

#[test]
fn what_the_device_said_is_told() {
    assert_eq!(refused::main(), Ok(()));
}

#[test]
fn a_file_says_what_a_stream_is_set_to() {
    assert_eq!(wave_file::main(), Ok(()));
}

#[test]
fn the_loop_that_does_not_wait_goes_on() {
    assert_eq!(go_on::main(), Ok(()));
}

#[test]
fn a_console_records() {
    assert_eq!(record::main(), Ok(()));
}

#[test]
fn a_transfer_writes_a_trace() {
    assert_eq!(traced::main(), Ok(()));
}

#[test]
fn a_device_is_read_by_its_version() {
    assert_eq!(versions::main(), Ok(()));
}

#[test]
fn the_page_shows_the_texts_that_ran() {
    let page = include_str!("../../../docs/HOST.md");
    let texts = [
        include_str!("../examples/audio_loop.rs"),
        include_str!("../examples/strict_mode.rs"),
        include_str!("../examples/refused.rs"),
        include_str!("../examples/wave_file.rs"),
        include_str!("../examples/go_on.rs"),
        include_str!("../examples/record.rs"),
        include_str!("../examples/traced.rs"),
        include_str!("../examples/versions.rs"),
    ];
    let blocks: Vec<_> = page.split("```").skip(1).step_by(2).collect();
    assert_eq!(blocks.len(), texts.len());
    for (text, block) in texts.iter().zip(blocks) {
        let shown = block.strip_prefix("rust\n").expect("the page shows Rust");
        assert!(text.contains(shown), "docs/HOST.md and an example differ:\n{shown}");
    }
}
