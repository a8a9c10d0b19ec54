//! Writes the example traces, and what the programs must print for them,
//! to where the repository keeps them: `examples/` and `crates/`.

use model::bare::{bare, line};
use model::example_traces::{trace_b, trace_c, trace_e};
use model::files::{arguments, at, files, printed, replay_of, report_of, written_of};
use model::trace::encode;
use model::Call;
use std::fs;

fn main() -> std::io::Result<()> {
    for folder in ["examples", "crates/vectors/data"] {
        fs::create_dir_all(at(folder))?;
        for (name, example) in files() {
            fs::write(at(folder).join(name), &example.bytes)?;
        }
    }
    fs::write(at("crates/vectors/args"), arguments())?;
    fs::write(at("crates/vectors/stdout"), printed())?;
    let b = encode(&trace_b());
    for program in ["judge", "port"] {
        fs::create_dir_all(at("crates").join(program))?;
        fs::write(at(&format!("crates/{program}/stdin")), &b)?;
        fs::write(at(&format!("crates/{program}/stdout")), report_of(&b))?;
    }
    fs::write(at("crates/image/stdin"), &b)?;
    fs::write(at("crates/image/stdout"), written_of(Call::Judge, &b))?;
    let e = encode(&trace_e());
    fs::create_dir_all(at("crates/order"))?;
    let image = written_of(Call::Judge, &e);
    fs::write(at("crates/order/stdin"), &image)?;
    fs::write(at("crates/order/stdout"), line(&bare(&image)))?;
    fs::write(at("crates/replay/stdin"), &e)?;
    fs::write(at("crates/replay/stdout"), replay_of(&e))?;
    let c = encode(&trace_c());
    let short = written_of(Call::Short, &c);
    fs::write(at("crates/short/stdin"), &c)?;
    fs::write(at("crates/short/stdout"), &short)?;
    fs::write(at("crates/long/stdin"), &short)?;
    fs::write(at("crates/long/stdout"), &c)
}
