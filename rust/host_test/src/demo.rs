//! Both ends in two network namespaces, and pings through them.

use crate::check::{Outcome, SOON};
use crate::ends::{Directory, Lab, Options, PLAIN};
use crate::packets::{CLINIC4, CLINIC6};
use crate::ping::Ping;
use crate::plan::{file, pings};
use crate::tests::applied;
use std::path::Path;

const COUNT: u16 = 3;
const DATA: [u8; 56] = [0; 56];

pub fn demo(program: &Path) -> Outcome {
    let directory = Directory::new()?;
    let lab = Lab::new(program, &directory, &format!("{}-demo", std::process::id()))?;
    let plan = pings();
    let options = Options { plan: &plan, apply: "ip", mtu: 0, ..PLAIN };
    println!("Two network namespaces, {} and {}, with a link between them.", lab.van.name(), lab.clinic.name());
    println!("\nThe van's configuration:\n");
    indent(&lab.van_config(&options)?);
    println!("\nThe clinic's configuration:\n");
    indent(&lab.clinic_config(&options)?);
    println!("\nBoth have the same plan, {} templates in {} bytes:\n", plan.len(), file(&plan).len());
    let path = directory.write("demo.plan", &file(&plan))?;
    indent(&lab.van.run(program, &["plan", "show", &path.to_string_lossy()], SOON)?.out);
    println!("\nBoth ends run; from the van's namespace:\n");
    let (van, clinic) = applied(&lab, &options)?;
    for target in [CLINIC4, CLINIC6] {
        let ping = Ping::new(&lab.van, target)?;
        for sequence in 1..=COUNT {
            let time = ping.echo(sequence, &DATA)?.as_secs_f64() * 1000.0;
            println!("    {} bytes from {target}: icmp_seq={sequence} time={time:.3} ms", DATA.len() + 8);
        }
    }
    for (name, end) in [("van", &van), ("clinic", &clinic)] {
        println!("\nThe {name}'s counters:\n");
        indent(&end.stats()?.out);
    }
    Ok(())
}

fn indent(text: &str) {
    text.lines().for_each(|line| println!("    {line}"));
}
