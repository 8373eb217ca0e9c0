//! Ends whose plans differ do not work together, and say so.

use super::Run;
use crate::check::{Outcome, SOON};
use crate::ends::{Lab, Options, CLINIC_TUN, PLAIN, VAN_TUN};
use crate::ensure;
use crate::peer::{greeting, Peer};
use crate::plan::{both_ways, drivers, file, Template};

pub const TESTS: &[(&str, Run)] = &[
    ("plans: two that differ", |lab| differ(lab, &both_ways(), &drivers())),
    ("plans: one end has none", |lab| differ(lab, &[], &drivers())),
    ("plans: a greeting with another plan", greeted),
];

fn differ(lab: &Lab, van: &[Template], clinic: &[Template]) -> Outcome {
    let mut clinic = lab.start_clinic(&Options { plan: clinic, ..PLAIN })?;
    let config = lab.van_config(&Options { plan: van, ..PLAIN })?;
    let mut van = lab.launch(&lab.van, VAN_TUN, &config)?;
    for end in [&mut van, &mut clinic] {
        let status = end.wait(SOON)?;
        ensure!(status == 3, "status {status}");
        ensure!(end.log.count("plan") > 0, "the log says nothing of plans");
        ensure!(end.log.count("stream up") == 0, "the stream was up");
    }
    ensure!(!lab.van.has_device(VAN_TUN) && !lab.clinic.has_device(CLINIC_TUN), "a device is left");
    Ok(())
}

fn greeted(lab: &Lab) -> Outcome {
    let mut clinic = lab.start_clinic(&PLAIN)?;
    let mut peer = Peer::connect(lab)?;
    peer.send(greeting(&file(&drivers())).as_bytes())?;
    let status = clinic.wait(SOON)?;
    ensure!(status == 3, "status {status}");
    peer.closed()
}
