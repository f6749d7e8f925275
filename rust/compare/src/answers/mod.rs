//! The list of stored answers: calls and what is due to them, one to a line.
//!
//! An answer is that of the Rust, with the number of its refusal as the subjects say it, or where
//! the Rust is not asked their own. Nothing here calls the library.

mod bodies;
mod bytes;
mod calls;
mod counts;
mod crops;
mod cubes;
mod fields;
mod lengths;
mod line;
mod lists;
mod numbers;
mod put;
mod records;
mod runs;
mod scenes;
mod shares;
mod shown;
mod spheres;
mod textures;
mod view;
mod writer;

use std::io::{self, Write};

use crate::inputs::random::Random;
use crate::options::Options;

use calls::CALLS;
use line::List;

type Group = (&'static str, fn(&mut List, &mut Random));

/// Each takes random numbers of its own name.
const GROUPS: [Group; 23] = [
    ("answers bytes", bytes::add),
    ("answers fields", fields::add),
    ("answers numbers", numbers::add),
    ("answers put", put::add),
    ("answers crops", crops::add),
    ("answers spheres", spheres::add),
    ("answers cubes", cubes::add),
    ("answers lists", lists::add),
    ("answers bodies", bodies::add),
    ("answers writer", writer::add),
    ("answers scenes", scenes::add),
    ("answers counts", counts::add),
    ("answers view", view::add),
    ("answers two fields", fields::add_two),
    ("answers word", numbers::add_word),
    ("answers runs", runs::add),
    ("answers crop", crops::add_crop),
    ("answers lengths", lengths::add),
    ("answers measured", bodies::add_measured),
    ("answers records", records::add),
    ("answers textures", textures::add),
    ("answers shown", shown::add),
    ("answers shares", shares::add),
];

const SOURCE: &str = "\
# Calls, and the answers that are due to them: those of mesh.rs and pano.rs with the number of a
# refusal, or where these are not asked those of rust/compare. Made with seed ";

const FORM: &str = "\
#
# CALL COUNT ARG.. xDATA CODE SUM NAME
#
# CALL, COUNT, ARG, CODE and SUM are hexadecimal. COUNT is the number of ARGs; a float is its bits, a
# length one of items. DATA is bytes, two digits each. CODE is the answer, an i64: the number of its
# words, or the number itself where no words are lent, or -k for refusal k, of which 12 names the
# needed lengths in its words.
# SUM is FNV-1a in 32 bits over the bytes of what was lent as it is after the call, each item with
# its big end first: eight words where words are lent, then the buffers. Before the call all their
# bytes are a5.
# A NaN that arithmetic makes is 7fc00000.
# Refusal 2 is not here: it takes a payload of more than 67108864 bytes.
#
# CALL NAME: ARGs; DATA; what is lent
";

/// Any of some lengths to lend, more often one of the first two: where nothing is refused these are
/// long enough.
fn one_of<T: Copy>(random: &mut Random, lengths: &[T]) -> T {
    match random.below(2) {
        0 => random.pick(lengths),
        _ => random.pick(&lengths[..2]),
    }
}

/// The first, and after it every `step`th, of what is handed out.
fn thinned(step: usize, hand_out: impl FnOnce(&mut dyn FnMut(&[u8]))) -> Vec<Vec<u8>> {
    let (mut taken, mut number) = (Vec::new(), 0);
    hand_out(&mut |bytes| {
        if number % step == 0 {
            taken.push(bytes.to_vec());
        }
        number += 1;
    });
    taken
}

/// Writes the list.
pub fn write(options: &Options, out: &mut impl Write) -> io::Result<()> {
    let mut list = List::default();
    for (name, add) in GROUPS {
        add(&mut list, &mut Random::new(options.seed, name));
    }
    write_head(options.seed, out)?;
    for line in list.lines() {
        writeln!(out, "{line}")?;
    }
    out.flush()
}

/// The comments: how the list is made, and what its columns are.
fn write_head(seed: u64, out: &mut impl Write) -> io::Result<()> {
    let flag = match seed {
        1 => String::new(),
        seed => format!(" --seed {seed}"),
    };
    let command = format!("rust/target/release/compare --answers{flag}");
    writeln!(out, "{SOURCE}{seed} by")?;
    writeln!(out, "#   {command} >crates/replay/stdin")?;
    out.write_all(FORM.as_bytes())?;
    for (place, call) in CALLS.iter().enumerate() {
        let (name, args) = (call.name, call.args.join(" "));
        let args = if args.is_empty() { "-" } else { &args };
        writeln!(
            out,
            "# {:02x} {name}: {args}; {}; {}",
            place + 1,
            call.data,
            call.lent
        )?;
    }
    Ok(())
}
