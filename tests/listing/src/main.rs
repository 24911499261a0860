//! `listing PROGRAM [SEED]`: runs the listing program over many inputs and
//! holds what it prints to the second program's listing, byte for byte. It
//! stops at the first difference, with that input in hex and both texts.

mod program;
mod seen;

use std::path::{Path, PathBuf};
use std::process::ExitCode;
use std::time::Duration;

use program::{read, Comes, Program};
use second::gen::edges::{Q1, R1};
use second::gen::{
    any_pair, any_pair_bytes, concept_edges, largest_register, medium_register, random_bytes,
    register_edges, requirement_edges, small_plain, small_register, with_thresholds, Palette, Rng,
};
use second::judged::WITHDRAWN;
use second::listing::{listing, MOST_INPUT};
use second::register::{self, Register};
use second::requirement::{self, Comparison, Node, Threshold};
use seen::Seen;

const SEED: u64 = 1;

/// How many bytes of an input are shown where the two differ; with the seed
/// the rest can be had again.
const MOST_SHOWN: usize = 4096;

/// What the document prints for R1 and Q1.
const SHEET: &str = "item degree map\n0 2/3 0,1\n1 1/3 1,-\n2 1/3 2,-\n";

fn main() -> ExitCode {
    let arguments: Vec<String> = std::env::args().skip(1).collect();
    let (path, seed) = match &arguments[..] {
        [path] => (path, Some(SEED)),
        [path, seed] => (path, seed.parse().ok()),
        _ => {
            eprintln!("usage: listing PROGRAM [SEED]");
            return ExitCode::from(2);
        }
    };
    let Some(seed) = seed else {
        eprintln!("listing: the seed is a number");
        return ExitCode::from(2);
    };
    let mut trial = Trial {
        program: Program {
            path: PathBuf::from(path),
        },
        seen: Seen::default(),
    };
    match trial.run(seed).and_then(|()| trial.seen.complete()) {
        Ok(()) => {
            println!("listing: {} inputs, no difference", trial.seen.inputs);
            println!("  {}", trial.seen.told());
            ExitCode::SUCCESS
        }
        Err(fault) => {
            eprintln!("listing: seed {seed}: {fault}");
            ExitCode::FAILURE
        }
    }
}

struct Trial {
    program: Program,
    seen: Seen,
}

impl Trial {
    fn run(&mut self, seed: u64) -> Result<(), String> {
        let mut rng = Rng::new(seed);
        self.sheet()?;
        self.examples()?;
        self.lengths()?;
        self.pieces(&mut rng)?;
        self.edges()?;
        self.withdrawn(&mut rng)?;
        self.largest(&mut rng)?;
        self.generated(&mut rng)
    }

    /// One input: the two texts are the same.
    fn same(&mut self, input: &[u8], comes: Comes) -> Result<(), String> {
        let wanted = listing(input);
        self.prints(input, comes, &wanted)
    }

    fn prints(&mut self, input: &[u8], comes: Comes, wanted: &[u8]) -> Result<(), String> {
        let printed = self.program.printed(input, comes);
        if printed.as_deref() == Ok(wanted) {
            self.seen.count(wanted);
            return Ok(());
        }
        let printed = match printed {
            Ok(text) => format!("printed:\n{}", String::from_utf8_lossy(&text)),
            Err(fault) => fault,
        };
        let shown = &input[..input.len().min(MOST_SHOWN)];
        let hex: String = shown.iter().map(|byte| format!("{byte:02x}")).collect();
        let wanted = String::from_utf8_lossy(wanted);
        let length = input.len();
        Err(format!(
            "the two differ on {length} bytes ({comes:?}) {hex}\n{printed}\nwanted:\n{wanted}"
        ))
    }

    /// The document's own example, and its first bytes, to every length.
    fn sheet(&mut self) -> Result<(), String> {
        let whole = [&R1[..], &Q1].concat();
        self.prints(&whole, Comes::AtOnce, SHEET.as_bytes())?;
        self.prints(&whole, Comes::FromFile, SHEET.as_bytes())?;
        self.prints(&[], Comes::AtOnce, b"register refused 1 at 0\n")?;
        for length in 0..whole.len() {
            self.same(&whole[..length], Comes::AtOnce)?;
        }
        self.same(&[&whole[..], &[0]].concat(), Comes::AtOnce)
    }

    /// Each requirement of examples/ on its own register or else the house, and
    /// the listing that stands beside it.
    fn examples(&mut self) -> Result<(), String> {
        let folder = Path::new(env!("CARGO_MANIFEST_DIR")).join("../../examples");
        let house = folder.join("house.register");
        let mut found = 0;
        let entries = folder.read_dir().map_err(|error| error.to_string())?;
        for entry in entries {
            let path = entry.map_err(|error| error.to_string())?.path();
            if path
                .extension()
                .is_some_and(|ending| ending == "requirement")
            {
                let own = path.with_extension("register");
                let register = if own.exists() { &own } else { &house };
                let input = [read(register)?, read(&path)?].concat();
                let wanted = read(&path.with_extension("listing"))?;
                self.prints(&input, Comes::AtOnce, &wanted)?;
                self.same(&input, Comes::FromFile)?;
                found += 1;
            }
        }
        match found {
            0 => Err("examples/ holds no requirement".to_string()),
            _ => Ok(()),
        }
    }

    /// Inputs at, just past and far past the most that is taken, and registers
    /// whose head says as much as it can.
    fn lengths(&mut self) -> Result<(), String> {
        for length in [MOST_INPUT - 1, MOST_INPUT, MOST_INPUT + 1, 70_000, 1 << 20] {
            for first in [&R1[..], &[1, 255, 255], &[1, 255, 253], &[0]] {
                let mut input = first.to_vec();
                input.resize(length, 0);
                self.same(&input, Comes::AtOnce)?;
                self.same(&input, Comes::FromFile)?;
            }
        }
        let mut input = [&R1[..], &Q1].concat();
        for length in [MOST_INPUT, MOST_INPUT + 1] {
            input.resize(length, 7);
            let pause = Duration::from_millis(1);
            self.same(&input, Comes::InPieces(8192, pause))?;
            self.same(&input, Comes::InPieces(MOST_INPUT, pause))?;
        }
        Ok(())
    }

    /// Input that comes slowly: byte by byte, in pieces that end within a
    /// field and at the border of the two, and with a long wait.
    fn pieces(&mut self, rng: &mut Rng) -> Result<(), String> {
        let sheet = [&R1[..], &Q1].concat();
        self.same(&sheet, Comes::InPieces(1, Duration::from_millis(2)))?;
        self.same(
            &sheet,
            Comes::InPieces(R1.len(), Duration::from_millis(300)),
        )?;
        self.same(&sheet[..2], Comes::InPieces(1, Duration::from_millis(50)))?;
        self.same(&[], Comes::InPieces(1, Duration::from_millis(100)))?;
        for _ in 0..40 {
            let (register, requirement) = any_pair_bytes(rng);
            let input = [register, requirement].concat();
            // About fifty pieces, whatever the length.
            let length = rng.between(1, 5) + input.len() / 50;
            self.same(&input, Comes::InPieces(length, Duration::from_micros(300)))?;
        }
        Ok(())
    }

    /// Inputs at each edge of the rules.
    fn edges(&mut self) -> Result<(), String> {
        for edge in register_edges() {
            self.same(&[&edge.bytes[..], &Q1].concat(), Comes::AtOnce)?;
        }
        for edge in requirement_edges().into_iter().chain(concept_edges()) {
            self.same(&[&R1[..], &edge.bytes].concat(), Comes::AtOnce)?;
        }
        Ok(())
    }

    /// Withdrawn items in both kinds of listing: by hand, and in registers of
    /// which none, some or all are.
    fn withdrawn(&mut self, rng: &mut Rng) -> Result<(), String> {
        let out = 1 << WITHDRAWN;
        let image = |names: &[u64]| {
            register::encode(&Register {
                names: names.to_vec(),
                links: vec![(0, 0, 1), (1, 0, 0), (2, 0, 0)],
            })
        };
        let plain = Node {
            children: vec![(0, Node::leaf(0))],
            ..Node::leaf(1)
        };
        let judging = Node {
            thresholds: vec![Threshold {
                comparison: Comparison::AtMost,
                p: 1,
                q: 2,
                inner: plain.clone(),
                start: 0,
                len: 0,
            }],
            ..Node::leaf(0)
        };
        let [plain, judging] = [plain, judging].map(|root| requirement::encode(&root));
        let some = image(&[1, 1 | out, 0]);
        let all = image(&[out, 1 | out, out]);
        let lines = "0 withdrawn -\n1 withdrawn -\n2 withdrawn -\n";
        let degrees = "item degree map\n";
        let members = "item member map\n";
        let by_hand = [
            (
                &some,
                &plain,
                degrees,
                "0 1/2 0,-\n1 withdrawn -\n2 1/2 2,0\n",
            ),
            (
                &some,
                &judging,
                members,
                "0 yes 0\n1 withdrawn -\n2 yes 2\n",
            ),
            (&all, &plain, degrees, lines),
            (&all, &judging, members, lines),
        ];
        for (register, message, head, lines) in by_hand {
            let input = [&register[..], message].concat();
            self.prints(&input, Comes::AtOnce, format!("{head}{lines}").as_bytes())?;
        }
        for round in 0..160 {
            let mut palette = Palette::any(rng);
            palette.withdrawn = [1, 2, 4, 8][round % 4];
            let items = match round % 8 {
                0 => medium_register(rng, &palette),
                _ => small_register(rng, &palette),
            };
            let root = match round % 3 {
                0 => small_plain(rng, &palette),
                _ => with_thresholds(rng, &palette, &items),
            };
            let input = [register::encode(&items), requirement::encode(&root)].concat();
            self.same(&input, Comes::AtOnce)?;
        }
        Ok(())
    }

    /// The largest register, plainly and with thresholds.
    fn largest(&mut self, rng: &mut Rng) -> Result<(), String> {
        for _ in 0..4 {
            let palette = Palette::any(rng);
            let large = largest_register(rng, &palette);
            let roots = [
                second::gen::plain_within_size(rng, &palette),
                with_thresholds(rng, &palette, &large),
            ];
            for root in roots {
                let input = [register::encode(&large), requirement::encode(&root)].concat();
                self.same(&input, Comes::AtOnce)?;
            }
        }
        Ok(())
    }

    /// Pairs of every size, good and damaged, and random bytes.
    fn generated(&mut self, rng: &mut Rng) -> Result<(), String> {
        for round in 0..1500 {
            let (register, requirement) = match round % 4 {
                0 => {
                    let (register, root) = any_pair(rng);
                    (register::encode(&register), requirement::encode(&root))
                }
                1 => (R1.to_vec(), random_bytes(rng, 60)),
                _ => any_pair_bytes(rng),
            };
            self.same(&[register, requirement].concat(), Comes::AtOnce)?;
        }
        Ok(())
    }
}
