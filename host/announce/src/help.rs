//! The text of --help.

pub const HELP: &str = "\
announce: speak announcements through the proved driver to the model device

usage: announce [OPTIONS] [FILE]...
       announce [OPTIONS] --record FILE --periods N

FILE is a WAVE file (8, 16, 24 or 32 bits PCM), which says its own channels,
format and rate, or has raw frames (signed 16 bits, little-endian); - is
standard input; without a FILE a tone is made. Several are spoken one after the
other on one device that is set up once: a page for each, and a closing line.

  --seconds S        length of the tone (3)
  --rate HZ          frames a second, one of VirtIO's 14 (48000): of raw frames
                     and the tone
  --channels N       channels of a frame, 1 to 255 (2): likewise
  --period BYTES     bytes of a period (4096)
  --buffer BYTES     bytes of the device's buffer, a multiple of the period
                     (4 periods)
  --slow G           the device completes a period only every G turns (1)
  --fail-at N        the device fails period N (the first is 1)
  --fail-call CALL   the device refuses CALL: streams, remap (with
                     --short-jacks), set-parameters, prepare, start, stop or
                     release
  --fail-status WORD the status of what it fails or refuses (0x8003, I/O error)
  --wrong-slot-at N  the device names a wrong slot at its completion N
  --budget N         turns allowed to an announcement (periods * G + 1)
  --strict           read of each answer only what the device wrote
  --guard            send no command, and take no transfer, that the standard's
                     lifecycle of a stream does not permit
  --indirect         the queue has indirect descriptors: a submission takes one,
                     so that 32 periods may be out, and not ten
  --short-jacks      the device answers the query of its jack by a header alone,
                     in a page that holds an old jack; a remap is then asked for
  --virtio V         the device follows VirtIO 1.2 or 1.3 (1.2): the page says
                     what its configuration has
  --controls N       it has N control elements, in 1.3, with their feature; it
                     tells of a change of one in each announcement
  --join             the FILEs are the parts of one announcement, in order: each
                     but the last is a whole number of periods, and all have
                     frames of one form; the page names the seams
  --go-on            speak without waiting: each period is submitted, and the
                     console goes on and polls a made-up breaker meanwhile; the
                     last period is filled up with silence, and the budget is the
                     console's own
  --record FILE      record from a made-up microphone, which hears the tone, in
                     place of speaking: FILE has what was kept, as raw frames or,
                     where its name ends in .wav, as a WAVE file of whole frames
  --periods N        so many periods of it
  --short-every K    of every K-th period it has half
  --written-at N     of period N it says to have written another length:
  --written BYTES    this one, with its status (7); 8 to the period and 8 are good
  --accepted FILE    write the bytes that the device had accepted when the
                     transfer answered: compare FILE with the frames
  --wav FILE         write the same as a WAVE file, in whole frames: play it
  --log FILE         write one JSON object: the page's facts, every period
  --picture FILE     write a timeline of the transfer, an SVG
  --trace FILE       write the trace of the transfer, of one announcement: what was
                     submitted, what came back, how it ended; judge reads it. One
                     that ran no turn has an empty trace
  -h, --help         this text

--name=value is --name value, and -- ends the options. With several FILEs the
device counts N of --fail-at and --wrong-slot-at over all of them; --accepted,
--wav, --log and --picture have all of them, in order. Nothing that is read is
overwritten, and no two outputs are one file.

Exit status, the worst of all FILEs: 0 the device accepted the whole
announcement, or every period was recorded; 1 not, and the page says why; 2
nothing was spoken for bad options or files, or an output could not be written.
";
