//! The gate notices each way to fail.

use std::process::Command;

use repository::files::root;

#[test]
fn gate() {
    let tried = Command::new("bash").arg(root().join(".ci/try")).output();
    let tried = tried.expect("bash runs");
    let said = String::from_utf8_lossy(&tried.stdout);
    assert!(tried.status.success(), "{said}");
    assert!(said.contains("ways to fail, each noticed"), "{said}");
}
