//! What build.rs asks of its surroundings.

#[path = "../build.rs"]
#[allow(dead_code, reason = "cargo runs it")]
mod build;

#[test]
fn the_variables_are_those_of_other_crates() {
    let (intel, arm) = ("x86_64-unknown-linux-gnu", "aarch64-unknown-linux-gnu");
    let own = ["CC_x86_64-unknown-linux-gnu", "CC_x86_64_unknown_linux_gnu", "HOST_CC", "CC"];
    assert_eq!(build::forms("CC", intel, intel), own);
    let others = ["AR_aarch64-unknown-linux-gnu", "AR_aarch64_unknown_linux_gnu", "TARGET_AR", "AR"];
    assert_eq!(build::forms("AR", intel, arm), others);
}

#[test]
fn other_systems_are_told_so() {
    assert!(
        build::check_target("linux", "x86_64", "64").is_ok() && build::check_target("linux", "aarch64", "64").is_ok()
    );
    for (os, processor, width) in
        [("macos", "aarch64", "64"), ("windows", "x86_64", "64"), ("linux", "riscv64", "64"), ("linux", "x86_64", "32")]
    {
        let why = build::check_target(os, processor, width).unwrap_err();
        assert!(why.contains("64-bit Linux") && why.contains(os) && why.contains("dependencies"), "{why}");
    }
}
