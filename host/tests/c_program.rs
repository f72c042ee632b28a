//! Compiles `program.c` with the header and the archive, runs it, and compares what it prints.

use std::path::Path;
use std::process::{Command, Output};

const EXPECTED: &str = "\
primitives=4 reals=14
no=1 line=2 mod=0 type=15 name=wall finish=0 links=0
no=2 line=3 mod=0 type=15 name=wall finish=0 links=0
no=3 line=4 mod=2 type=2 name=lamp finish=2 links=1
no=4 line=5 mod=0 type=15 name=trim finish=0 links=0
name 9: 17
name, 9 stated: 18
finish 3, no links: 19 0 0
refused=7 place=0
refused=16 place=26
primitives=0 reals=0
name 9: 17
name, 9 stated: 18
finish 3, no links: 17 0 0
refused=28 place=5
refused=28 place=5
primitives=2 reals=0
no=1 line=1 mod=0 type=24 name=hole finish=0 links=0
no=2 line=2 mod=1 type=24 name=slot finish=1 links=1
name 9: 17
name, 9 stated: 18
finish 3, no links: 17 0 0
indexed=0 place=0 primitives=4 reals=14 looked=5
entry 458: 2
entry 1058: 4
indexed=24 place=0 primitives=0 reals=0 looked=0
indexed=5 place=4 primitives=0 reals=0 looked=0
mixed=0 place=0
no=1 pair=0,0 listed=0 0: 0 0
no=2 pair=0,6 listed=0 2: 1 6
no=3 pair=0,6 listed=0 1: 6 0
no=4 pair=0,0 listed=0 1: 6 0
no=5 pair=0,0 listed=0 2: 1 6
no=6 pair=0,0 listed=0 0: 0 0
shown 7: 17 0, pairs short: 18 0
mixed=0 place=0
no=1 pair=0,0 listed=0 0: 0
no=2 pair=0,6 listed=23 0: 0
no=3 pair=0,6 listed=0 1: 6
no=4 pair=0,0 listed=0 1: 6
no=5 pair=0,0 listed=23 0: 0
no=6 pair=0,0 listed=0 0: 0
shown 7: 17 0, pairs short: 18 0
mixed=27 place=0
shown 1: 17 0, pairs short: 18 0
mixed=25 place=19
shown 1: 17 0, pairs short: 18 0
mixed=26 place=13
shown 1: 17 0, pairs short: 18 0
order of 1 and 4: 1, 4 1, deskfront
order of 1 and 3: 1, 3 1, deskfront
order of 1 and 2: 1, 2 1, deskfront
order of 2 and 4: 1, 3 3, deskfront
order of 2 and 3: 1, 3 3, deskfront
order of 3 and 4: 1, 4 3, deskfront
order of 0 and 1: 17, 0 0
order of 1 and 1: 17, 0 0
order, 9 stated: 18, 0 0
order, 1 its own alias: 18, 0 0
order of 1 and 6: 0, 0 0
order of 1 and 5: 1, 2 1, oak
order of 1 and 4: 1, 2 1, oak
order of 1 and 3: 1, 2 1, oak
order of 1 and 2: 1, 2 1, oak
order of 2 and 6: 0, 0 0
order of 2 and 5: 1, 5 2, inlay
order of 2 and 4: 1, 3 2, inlay
order of 2 and 3: 1, 3 2, inlay
order of 3 and 6: 0, 0 0
order of 3 and 5: 0, 0 0
order of 3 and 4: 1, 4 3, border
order of 4 and 6: 0, 0 0
order of 4 and 5: 0, 0 0
order of 5 and 6: 0, 0 0
order of 0 and 1: 17, 0 0
order of 1 and 1: 17, 0 0
order, 9 stated: 18, 0 0
order, 1 its own alias: 18, 0 0
name=bulb nth=1 state=right
name=lamp nth=1 state=changed
name=trim nth=1 state=left
name=wall nth=2 state=left
name=bulb nth=1 state=left
name=lamp nth=1 state=changed
name=trim nth=1 state=right
name=wall nth=2 state=right
scene=right refused=4 place=0
scene=left refused=5 place=4
scene=right refused=26 place=13
written=0 place=0 length=126
void plastic wall
0
0
5 .5 .5 .5 0 0
void plastic wall
0
0
5 .2 .2 .2 0 0
wall sphere lamp
0
0
4 0 0 0 1
void alias trim wall
written=22 place=0 length=0
written=23 place=0 length=0
written=22 place=0 length=0
moved=0 place=0 length=76
void glass clear
0
0
4 .96 .96 .96 1.52
void glass grey
0
0
4 .5 .5 .5 1.52
moved=13 place=0 length=0
moved=0 place=0 length=66
void glass clear
0
0
3 .96 .96 .96
void glass grey
0
0
3 .5 .5 .5
moved=23 place=0 length=0
sorted=0 place=0 length=149
# a lamp before a wall
void plastic wall 0 0 5 .5 .5 .5 0 0
void plastic wall 0 0 5 .2 .2 .2 0 0
void alias trim wall
wall sphere lamp 0 0 4 0 0 0 1
sorted=22 place=0 length=0
sorted=0 place=0 length=202
void plastic oak 0 0 5 .5 .4 .2 0 0
void plastic ash 0 0 5 .7 .6 .5 0 0
oak mixfunc inlay 4 void ash v f.cal 0 0
void alias border inlay
border sphere knob 0 0 4 0 0 0 1
inlay sphere foot 0 0 4 0 0 0 1
sorted=22 place=0 length=0
sorted=23 place=0 length=0
sorted=22 place=0 length=0
sorted=33 place=38 length=0
cannot be cut
sorted=22 place=0 length=0
sorted=34 place=28 length=0
cannot be cut
sorted=22 place=0 length=0
sorted=5 place=4 length=0
sorted=5 place=4 length=0
joined=0 text=0 place=0 length=96 primitives=3 reals=12
void light bulb
0
0
3 1 1 1
void plastic wall
0
0
5 .2 .2 .2 0 0
wall sphere knob
0
0
4 0 0 0 1
joined=23 text=0 place=0 length=0 primitives=0 reals=0
checked=0 text=0 place=0 length=97 primitives=3 reals=12
void plastic wall 0 0 5 .2 .2 .2 0 0
void light bulb 0 0 3 1 1 1.
wall sphere knob 0 0 4 0 0 0 1
checked=23 text=0 place=0 length=0 primitives=0 reals=0
checked=32 text=0 place=0 length=0 primitives=0 reals=0
checked=5 text=4 place=4 length=0 primitives=0 reals=0
joined=7 text=3 place=0 length=0 primitives=0 reals=0
joined=29 text=0 place=0 length=0 primitives=0 reals=0
checked=30 text=0 place=0 length=0 primitives=0 reals=0
joined=31 text=0 place=0 length=0 primitives=0 reals=0
word 1 4
word 6 5
word 12 0
sphere 0 4
sphere 1 0
sphere 21 0
ring 0 6
ring 1 0
polygon 0 5
polygon 1 0
polygon 21 0
fresnel 0 0.25 0.25 0.25
fresnel 1 0 0 0
fresnel 0 1 1 1
fresnel 20 0 0 0
pane 0 0.25 0.5
pane 20 0 0
transmissivity 0 0.958
transmissivity 21 0
leaving, sphere 0 1.00098
leaving, ring 0 1.00098
leaving, polygon 1 0
leaving, polygon above 0: 0 0.000976562
sphere above -1: 21 0
root 1.4142135623730949
root of -1 is none
screen 1: 18 0, above 2.5: 18 0
screen 2: 0 2.5, above 2.5: 1 0
screen 3: 21 0, above 2.5: 21 0
screen 4: 17 0, above 2.5: 17 0
";

fn package() -> &'static Path {
    Path::new(env!("CARGO_MANIFEST_DIR"))
}

/// Compiles a source file with warnings as errors, for a language and its standard; none if there is no compiler.
fn compile(compiler: &str, options: &[&str], program: &Path) -> Option<Output> {
    let mut command = Command::new(compiler);
    command.args(options).args(["-Wall", "-Wextra", "-Werror", "-O2", "-I"]).arg(package());
    command.arg(package().join("tests/program.c"));
    // The archive is no C++ source, whatever the options say of the program
    command.args(["-x", "none"]).arg(package().join("../target/staticlib/libkribbelsteen.a"));
    command.arg("-o").arg(program);
    command.output().ok()
}

fn prints_what_is_expected(compiler: &str, options: &[&str], name: &str) {
    let program = Path::new(env!("CARGO_TARGET_TMPDIR")).join(name);
    let Some(compiled) = compile(compiler, options, &program) else {
        eprintln!("skipped: there is no {compiler}");
        return;
    };
    assert!(compiled.status.success(), "{compiler}: {}", String::from_utf8_lossy(&compiled.stderr));
    let run = Command::new(&program).output().expect("the program runs");
    assert!(run.status.success(), "the program ends with {}", run.status);
    assert_eq!(String::from_utf8_lossy(&run.stdout), EXPECTED);
}

#[test]
fn a_c_program_links_and_runs() {
    prints_what_is_expected("cc", &["-std=c99", "-pedantic"], "program_c");
}

#[test]
fn the_header_is_cpp_too() {
    prints_what_is_expected("c++", &["-std=c++11", "-x", "c++"], "program_cpp");
}
