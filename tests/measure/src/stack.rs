//! How much stack compiled functions take at most, read from what
//! `objdump -dr -C --no-show-raw-insn` says of them. A function's own part is its
//! return address, everything it pushes and everything it takes from the stack
//! pointer, wherever in it that stands; below it comes the deepest of the functions
//! it calls, or, where it calls none, what it uses below the stack pointer without
//! taking it. Functions that call each other are refused, but for those
//! of which a table says how often they do. The C library's memcpy and memset are
//! not counted.

use std::collections::BTreeMap;

#[derive(Default, Debug, PartialEq, Eq)]
struct Function {
    own: usize,
    below: usize,
    calls: Vec<String>,
}

/// Functions that call each other, how many calls of each may be open at once, and how
/// many bytes one of them may take.
#[derive(Clone, Copy)]
pub struct Cycle {
    pub functions: &'static [&'static str],
    pub times: usize,
    pub frame: usize,
}

/// The cycles of the proved calls. A chain visits an event, and from there the right event
/// of each relation that blocks it. A visit goes on only where its event is not open yet, and
/// opens it: so there are at most as many that go on as there can be events, 64, and below
/// them one that finds its event open. What the compiler makes a function of its own again,
/// the visit of a relation, is not in this table, and is then refused as a cycle.
pub const CYCLES: [Cycle; 1] = [Cycle {
    functions: &["chain::stops::Visits::event"],
    times: 65,
    frame: 140,
}];

pub struct Program {
    functions: BTreeMap<String, Function>,
    cycles: Vec<Cycle>,
}

/// What a call takes at most, and the calls that take it.
pub struct Depth {
    pub call: String,
    pub bytes: usize,
    pub way: Vec<String>,
}

const LIBRARY: [&str; 3] = ["memcpy", "memset", "memmove"];
const ADDRESS: usize = 8;

/// `0000000000000000 <name>:`
fn heading(line: &str) -> Option<&str> {
    let name = line.strip_suffix(">:")?.split_once(" <")?.1;
    line.starts_with(|first: char| first.is_ascii_hexdigit())
        .then_some(name)
}

/// `3c: R_X86_64_PLT32 name-0x4`, or `.text.name-0x4` where the name is the
/// object's own: each function has a section to itself.
fn target(line: &str) -> Option<&str> {
    let place = line.split_once("R_X86_64_PLT32")?.1.trim();
    let name = place.rsplit_once("-0x").map_or(place, |parts| parts.0);
    Some(name.strip_prefix(".text.").unwrap_or(name))
}

/// The operation and its operands: `sub    $0x820,%rsp`
fn instruction(line: &str) -> Option<(&str, &str)> {
    let text = line.split_once(":\t")?.1.trim();
    Some(
        text.split_once(' ')
            .map_or((text, ""), |(word, rest)| (word, rest.trim())),
    )
}

/// `0 <name>`: the start of the function that the call stands in. A call of another
/// one is to be filled in, and shows the place behind it until then.
fn itself(operands: &str) -> Option<&str> {
    let name = operands.split_once(" <")?.1.strip_suffix('>')?;
    (!name.contains("+0x")).then_some(name)
}

/// `-0x20(%rsp)`: how far below the stack pointer that is.
fn below(operands: &str) -> Option<usize> {
    let digits = operands.split_once("-0x")?.1.split_once("(%rsp")?.0;
    usize::from_str_radix(digits, 16).ok()
}

fn literal(word: &str) -> Option<usize> {
    usize::from_str_radix(word.strip_prefix("$0x")?, 16).ok()
}

impl Function {
    /// A function that calls another takes all that it uses; what it says of a place
    /// below the stack pointer is an index's part then.
    fn taken(&self) -> usize {
        self.own + if self.calls.is_empty() { self.below } else { 0 }
    }

    /// Takes one more instruction in; an error where it hides what is called or taken.
    fn step(&mut self, word: &str, operands: &str) -> Result<(), String> {
        match (word, operands.rsplit_once(',')) {
            ("push", _) => self.own += ADDRESS,
            // A large frame is taken page by page down to an address that r11 holds.
            ("sub", Some((amount, "%rsp" | "%r11"))) => {
                self.own += literal(amount).ok_or(format!("sub {operands}"))?;
            }
            ("and", Some((_, "%rsp"))) => return Err(format!("and {operands}")),
            ("call", _) if operands.starts_with('*') => return Err(format!("call {operands}")),
            ("call", _) => self.calls.extend(itself(operands).map(str::to_string)),
            _ => self.below = self.below.max(below(operands).unwrap_or(0)),
        }
        Ok(())
    }
}

impl Program {
    pub fn read(text: &str, cycles: &[Cycle]) -> Result<Program, String> {
        let mut functions: BTreeMap<String, Function> = BTreeMap::new();
        let mut name = None;
        for line in text.lines() {
            if let Some(new) = heading(line) {
                let start = Function {
                    own: ADDRESS,
                    ..Function::default()
                };
                functions.insert(new.to_string(), start);
                name = Some(new);
                continue;
            }
            let Some(function) = name.and_then(|name| functions.get_mut(name)) else {
                continue;
            };
            if let Some(target) = target(line) {
                function.calls.push(target.to_string());
            } else if let Some((word, operands)) = instruction(line) {
                function.step(word, operands)?;
            }
        }
        Ok(Program {
            functions,
            cycles: cycles.to_vec(),
        })
    }

    /// The names of the functions that begin so.
    fn names(&self, start: &str) -> Vec<String> {
        let names = self.functions.keys();
        names
            .filter(|name| name.starts_with(start))
            .cloned()
            .collect()
    }

    /// Leaves calls of the second function out of the first.
    fn leave_out(&mut self, name: &str, called: &str) {
        if let Some(function) = self.functions.get_mut(name) {
            function.calls.retain(|name| name != called);
        }
    }

    fn function(&self, name: &str) -> Result<&Function, String> {
        self.functions
            .get(name)
            .ok_or(format!("no code for {name}"))
    }

    /// The most that a call of this function takes, and the calls that take it.
    /// `above` are the functions that have led to it: none may come again.
    fn deepest(&self, name: &str, above: &[&str]) -> Result<(usize, Vec<String>), String> {
        if above.contains(&name) {
            return Err(format!("{name} calls itself"));
        }
        let cycle = self.cycles.iter().find(|c| c.functions.contains(&name));
        let alone = [name];
        let (names, times) = cycle.map_or((&alone[..], 1), |c| (c.functions, c.times));
        let path: Vec<&str> = above.iter().chain(names).copied().collect();
        let (mut own, mut below) = (0, (0, Vec::new()));
        for name in names {
            let function = self.function(name)?;
            let taken = function.taken();
            if let Some(most) = cycle.map(|c| c.frame).filter(|most| taken > *most) {
                return Err(format!(
                    "{name} takes {taken} bytes again and again: {most} at most"
                ));
            }
            own += times * taken;
            for called in &function.calls {
                let within = cycle.is_some_and(|c| c.functions.contains(&called.as_str()));
                if !within && !LIBRARY.contains(&called.as_str()) {
                    below = below.max(self.deepest(called, &path)?);
                }
            }
        }
        let mut way = vec![names.join(" and ")];
        if times > 1 {
            way[0] += &format!(", {times} times");
        }
        way.extend(below.1);
        Ok((own + below.0, way))
    }

    /// Of each exported call, the deepest first. A loop around a call that does not
    /// read an image hands it decoded values: that it reads them before is left
    /// out. A call for C reads its images itself. Where a call has two loops, the one
    /// that calls it again from the same marking is left out.
    pub fn depths(&mut self) -> Result<Vec<Depth>, String> {
        let mut names = self.names("timing_");
        names.retain(|name| !name.ends_with("_again"));
        for name in &names {
            let call = name.trim_start_matches("timing_");
            if !call.starts_with("read_") && call != "station" {
                self.leave_out(name, "image::read_table");
                self.leave_out(name, "image::read_marking");
            }
        }
        names.extend(self.names("duty_"));
        let mut depths = Vec::new();
        for name in &names {
            let (bytes, way) = self.deepest(name, &[])?;
            depths.push(Depth {
                call: name.trim_start_matches("timing_").to_string(),
                bytes,
                way: way[1..].to_vec(),
            });
        }
        depths.sort_by(|a, b| b.bytes.cmp(&a.bytes).then(a.call.cmp(&b.call)));
        Ok(depths)
    }
}

#[cfg(test)]
mod tests {
    use super::*;

    const TEXT: &str = "
0000000000000000 <duty_one>:
   0:\tpush   %rbp
   1:\tsub    $0x20,%rsp
   5:\tcall   a <duty_one+0xa>
\t\t\t6: R_X86_64_PLT32\tmemcpy-0x4
   a:\tcall   f <duty_one+0xf>
\t\t\tb: R_X86_64_PLT32\t.text.engine::judge::judge-0x4
   f:\tcall   14 <duty_one+0x14>
\t\t\t10: R_X86_64_PLT32\tsmall-0x4
  14:\tret
0000000000000000 <engine::judge::judge>:
   0:\tsub    $0x100,%rsp
0000000000000000 <small>:
   0:\tret
";

    fn read(text: &str) -> Result<Program, String> {
        Program::read(text, &[])
    }

    #[test]
    fn the_deepest_way_is_added_up() {
        let program = read(TEXT).expect("plain code");
        let (bytes, way) = program.deepest("duty_one", &[]).expect("no recursion");
        assert_eq!(bytes, 8 + 8 + 0x20 + 8 + 0x100);
        assert_eq!(way, ["duty_one", "engine::judge::judge"]);
    }

    #[test]
    fn what_is_used_below_the_stack_pointer_counts() {
        let small = "<small>:\n   0:\t";
        for (used, bytes) in [
            ("mov    %rax,-0x20(%rsp)", 0x20),
            ("mov    -0x8(%rsp,%rax,4),%rax", 8),
            ("mov    0x8(%rsp),%rax", 0),
        ] {
            let text = TEXT.replace(small, &format!("{small}{used}\n   5:\t"));
            let program = read(&text).expect("plain code");
            let (all, _) = program.deepest("small", &[]).expect("no recursion");
            assert_eq!(all, 8 + bytes, "{used}");
        }
        // Of a function that calls another it is none.
        let whole = |text: &str| read(text).expect("plain code").deepest("duty_one", &[]);
        let text = TEXT.replace(
            "push   %rbp",
            "push   %rbp\n   1:\tmov    -0x90(%rsp,%rax,8),%rax",
        );
        assert_eq!(
            whole(&text).expect("no recursion"),
            whole(TEXT).expect("no recursion")
        );
    }

    #[test]
    fn what_is_left_out_does_not_count() {
        let mut program = read(TEXT).expect("plain code");
        program.leave_out("duty_one", "engine::judge::judge");
        let (bytes, way) = program.deepest("duty_one", &[]).expect("no recursion");
        assert_eq!(bytes, 8 + 8 + 0x20 + 8);
        assert_eq!(way, ["duty_one", "small"]);
    }

    #[test]
    fn what_cannot_be_added_up_is_refused() {
        assert!(read(&TEXT.replace("ret", "call   *%rax")).is_err());
        assert!(read(&TEXT.replace("$0x20,", "%rax,")).is_err());
        assert!(read(&TEXT.replace("push   %rbp", "and    $0xff,%rsp")).is_err());
        for (plain, again) in [
            ("small-0x4", "duty_one-0x4"),
            ("14:\tret", "14:\tcall   0 <duty_one>"),
        ] {
            let program = read(&TEXT.replace(plain, again)).expect("plain code");
            assert!(program.deepest("duty_one", &[]).is_err(), "{again}");
        }
    }

    /// The call visits an event, an event its relations, a relation its event; and
    /// each of them calls something else, of which the relation's is the deeper.
    const VISITS: &str = "
0000000000000000 <duty_chain>:
   0:\tsub    $0x10,%rsp
   5:\tcall   a <duty_chain+0xa>
\t\t\t6: R_X86_64_PLT32\tevent_visit-0x4
0000000000000000 <event_visit>:
   0:\tsub    $0x30,%rsp
   5:\tcall   a <event_visit+0xa>
\t\t\t6: R_X86_64_PLT32\trelation_visit-0x4
   a:\tcall   f <event_visit+0xf>
\t\t\tb: R_X86_64_PLT32\tsmall-0x4
0000000000000000 <relation_visit>:
   0:\tsub    $0x40,%rsp
   5:\tcall   a <relation_visit+0xa>
\t\t\t6: R_X86_64_PLT32\tevent_visit-0x4
   a:\tcall   f <relation_visit+0xf>
\t\t\tb: R_X86_64_PLT32\tlarge-0x4
0000000000000000 <large>:
   0:\tsub    $0x100,%rsp
0000000000000000 <small>:
   0:\tret
";

    const VISIT: Cycle = Cycle {
        functions: &["event_visit", "relation_visit"],
        times: 64,
        frame: 8 + 0x40,
    };

    #[test]
    fn a_cycle_counts_as_often_as_the_table_says() {
        let program = Program::read(VISITS, &[VISIT]).expect("plain code");
        let (bytes, way) = program.deepest("duty_chain", &[]).expect("in the table");
        let visits = 64 * (8 + 0x30) + 64 * (8 + 0x40);
        assert_eq!(bytes, 8 + 0x10 + visits + 8 + 0x100);
        let both = "event_visit and relation_visit, 64 times";
        assert_eq!(way, ["duty_chain", both, "large"]);
    }

    #[test]
    fn what_is_taken_again_and_again_is_small() {
        let program = Program::read(&VISITS.replace("$0x40", "$0x41"), &[VISIT]);
        let refused = program.expect("plain code").deepest("duty_chain", &[]);
        let fault = "relation_visit takes 73 bytes again and again: 72 at most";
        assert_eq!(refused.expect_err("too much"), fault);
    }

    #[test]
    fn a_cycle_that_the_table_does_not_have_is_refused() {
        let refused = |text: &str, cycles: &[Cycle]| {
            let program = Program::read(text, cycles).expect("plain code");
            program.deepest("duty_chain", &[]).is_err()
        };
        assert!(refused(VISITS, &[]));
        // What one of them calls leads back to it, or above it.
        assert!(!refused(VISITS, &[VISIT]));
        let through = "0000000000000000 <small>:\n\t\t\t0: R_X86_64_PLT32\t";
        let back = VISITS.replace(
            "0000000000000000 <small>:",
            &format!("{through}event_visit-0x4"),
        );
        assert!(refused(&back, &[VISIT]));
        let above = VISITS.replace(
            "0000000000000000 <small>:",
            &format!("{through}duty_chain-0x4"),
        );
        assert!(refused(&above, &[VISIT]));
        // A function of the table that is not there was renamed, or became a part of another.
        assert!(refused(
            &VISITS.replace("relation_visit", "visit"),
            &[VISIT]
        ));
    }

    /// The visit calls itself, by its name or as the start of its own section.
    #[test]
    fn the_visit_of_an_event_counts_for_each_event_and_one_more() {
        for again in [
            "   5:\tcall   0 <chain::stops::Visits::event>",
            "   5:\tcall   a <chain::stops::Visits::event+0xa>\n\t\t\t6: R_X86_64_PLT32\t.text.chain::stops::Visits::event-0x4",
        ] {
            let text = format!(
                "0000000000000000 <duty_chain>:
   0:\tsub    $0x10,%rsp
   5:\tcall   a <duty_chain+0xa>
\t\t\t6: R_X86_64_PLT32\tchain::stops::Visits::event-0x4
0000000000000000 <chain::stops::Visits::event>:
   0:\tsub    $0x28,%rsp
{again}
"
            );
            let program = Program::read(&text, &CYCLES).expect("plain code");
            let (bytes, way) = program.deepest("duty_chain", &[]).expect("in the table");
            assert_eq!(bytes, 8 + 0x10 + (64 + 1) * (8 + 0x28));
            let visits = "chain::stops::Visits::event, 65 times";
            assert_eq!(way, ["duty_chain", visits]);
            // A relation's visit between them is not in the table.
            let through = text.replace(
                again,
                "\t\t\t6: R_X86_64_PLT32\tchain::stops::Visits::relation-0x4
0000000000000000 <chain::stops::Visits::relation>:
\t\t\t6: R_X86_64_PLT32\tchain::stops::Visits::event-0x4",
            );
            let program = Program::read(&through, &CYCLES).expect("plain code");
            assert!(program.deepest("duty_chain", &[]).is_err());
        }
    }

    #[test]
    fn the_exported_calls_come_deepest_first() {
        let text = TEXT.replace("duty_one", "timing_one")
            + "0000000000000000 <timing_one_again>:\n"
            + "0000000000000000 <duty_two>:\n   0:\tsub    $0x400,%rsp\n";
        let text = text.replace("engine::judge::judge", "image::read_table");
        let depths = read(&text).and_then(|mut program| program.depths());
        let depths = depths.expect("no recursion");
        let told: Vec<(&str, usize)> = depths.iter().map(|d| (d.call.as_str(), d.bytes)).collect();
        assert_eq!(told, [("duty_two", 8 + 0x400), ("one", 8 + 8 + 0x20 + 8)]);
    }
}
