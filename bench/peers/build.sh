#!/bin/sh
# build.sh CROSSTERM: builds the peers over a copy of crossterm 0.25's source, a folder, whose parser
# is made public and stays as it is. `PEERS_CORE` is a folder of ratatui-core where
# the crate isn't fetched.
set -e
cd "$(dirname "$0")"
source=${1:?a folder of crossterm 0.25}
rm -rf crossterm
cp -r "$source" crossterm
rm -f crossterm/.cargo-checksum.json
cat >> crossterm/src/event/source/unix.rs <<'RS'

/// The parser, for bytes that come from anywhere.
pub struct EventParser(Parser);

impl EventParser {
    pub fn new() -> EventParser {
        EventParser(Parser::default())
    }

    /// Sees each event of some bytes.
    pub fn each(&mut self, bytes: &[u8], mut see: impl FnMut(Event)) {
        self.0.advance(bytes, false);
        for event in &mut self.0 {
            if let InternalEvent::Event(event) = event {
                see(event);
            }
        }
    }
}
RS
sed -i 's/^pub(crate) mod unix;/pub mod unix;/' crossterm/src/event/source.rs
printf '\npub use source::unix::EventParser;\n' >> crossterm/src/event.rs
if [ -n "$PEERS_CORE" ]; then
    cargo build --offline -q --release --config "patch.crates-io.ratatui-core.path='$PEERS_CORE'"
else
    cargo build -q --release
fi
