//! Files: never half written, kept from a second `van`, and alone changed by what
//! was done.

use crate::common::*;
use crate::{Folder, Ran};
use std::fs::{self, File, Permissions};
use std::os::unix::fs::{symlink, MetadataExt, PermissionsExt};
use std::process::Stdio;
use std::thread::spawn;
use std::time::{Duration, Instant};
use val_host::random::Random;
use val_host::{act, check, Answer};

/// The files beside an image while it is written.
const LOCK: &str = ".v0.van-lock";
const TEMPORARY: &str = ".v0.van-new";

const DAY: u16 = 9815; // 2026-11-15

/// Van 0 with cost 0, which is in no crew.
fn with_cost(name: &str) -> Folder {
    let folder = Folder::new(name);
    folder.done("new v0 --van 0");
    folder.done("enter v0 0 0 0:1c --day 2026-11-15");
    folder
}

/// A command that changes cost 0, and the image that comes of it.
fn change_to(cents: u32, image: &[u8]) -> (String, Vec<u8>) {
    let mut after = image.to_vec();
    let record = naming(DAY, change(0, 0, shares(&[(0, cents)])));
    assert_eq!(act(&mut after, &record), Answer::Ok);
    (format!("change v0 0 0 0:{cents}c --day 2026-11-15"), after)
}

fn wait_until(moment: Instant) {
    while Instant::now() < moment {
        std::hint::spin_loop();
    }
}

/// A thousand times the program is killed while it writes, at a random moment of
/// its whole run or from the moment on at which the temporary file is there. What
/// stands is the old image or the new one, and passes the check; and the next
/// `van` is not hindered by what is left of the one before.
#[test]
fn killed_at_any_moment_it_leaves_a_whole_image() {
    let folder = with_cost("killed");
    let mut random = Random::new(1);
    let begin = Instant::now();
    folder.done("change v0 0 0 0:2c --day 2026-11-15");
    let run = begin.elapsed();
    let (mut old, mut new, mut halfway) = (0, 0, 0);
    for turn in 0..1000 {
        let before = folder.bytes("v0");
        let (line, after) = change_to(10 + turn, &before);
        let mut child = folder.command(&line).stdout(Stdio::null()).spawn().unwrap();
        let start = Instant::now();
        if random.chance(60) {
            let written = || folder.path(TEMPORARY).exists() || folder.bytes("v0") == after;
            while !written() && start.elapsed() < Duration::from_secs(5) {}
            wait_until(Instant::now() + run.mul_f64(random.below(1000) as f64 / 2000.0));
        } else {
            wait_until(start + run.mul_f64(random.below(1000) as f64 / 1000.0));
        }
        child.kill().unwrap();
        child.wait().unwrap();
        let image = folder.bytes("v0");
        assert_eq!(check(&image), Answer::Ok, "turn {turn}");
        assert!(image == before || image == after, "turn {turn}: neither the old nor the new");
        halfway += usize::from(folder.path(TEMPORARY).exists());
        *(if image == after { &mut new } else { &mut old }) += 1;
    }
    println!("old {old}, new {new}, of these with a temporary file left {halfway}");
    assert!(old > 0 && new > 0 && halfway > 0, "{old} {new} {halfway}");
    folder.done("change v0 0 0 0:9c --day 2026-11-15");
    assert_eq!(folder.names(), ["v0"]);
}

/// Many at once, each entering a cost, and trying again where another was writing
/// all the while: all are done in the end, and none is lost.
#[test]
fn no_van_writes_over_another() {
    let folder = Folder::new("many");
    folder.done("new v0 --van 0");
    let busy = Ran::stopped(3, "van: cannot lock v0: another van is writing to it");
    let runs: Vec<_> = (0..48)
        .map(|cost| {
            let mut command = folder.command(&format!("enter v0 0 {cost} 0:1c --day 2026-11-15"));
            let mut run = move || Ran::of(command.output().unwrap());
            let busy = busy.clone();
            spawn(move || std::iter::repeat_with(&mut run).find(|ran| *ran != busy).unwrap())
        })
        .collect();
    for run in runs {
        let done = Ran { status: 0, out: "done\n".into(), err: String::new() };
        assert_eq!(run.join().unwrap(), done);
    }
    assert_eq!(folder.shows("check v0"), "sound: van 0, version 3, 0 crews, 48 costs\n");
    assert_eq!(folder.names(), ["v0"]);
}

#[test]
fn a_locked_image_is_not_written() {
    let folder = with_cost("locked");
    let before = folder.bytes("v0");
    let lock = File::create(folder.path(LOCK)).unwrap();
    lock.lock().unwrap();
    let busy = Ran::stopped(3, "van: cannot lock v0: another van is writing to it");
    assert_eq!(folder.van("delete v0 0 0"), busy);
    assert_eq!(folder.bytes("v0"), before);
    // Reading needs no lock.
    assert_eq!(folder.shows("statement v0"), "van 0\n");
    drop(lock);
    // A lock's file that nobody holds is no lock, also one that can't be written.
    fs::set_permissions(folder.path(LOCK), Permissions::from_mode(0o444)).unwrap();
    folder.done("delete v0 0 0");
    assert_eq!(folder.names(), ["v0"]);
}

/// What can be neither opened nor made is waited for no longer than a held lock.
#[test]
fn a_lock_that_leads_nowhere_is_given_up() {
    let folder = with_cost("nowhere");
    symlink("nowhere/lock", folder.path(LOCK)).unwrap();
    let busy = Ran::stopped(3, "van: cannot lock v0: another van is writing to it");
    assert_eq!(folder.van("delete v0 0 0"), busy);
    assert_eq!(folder.shows("check v0"), "sound: van 0, version 3, 0 crews, 1 cost\n");
}

/// With a refusal, and where there is nothing new, the file itself is the same.
#[test]
fn nothing_is_written_without_need() {
    let folder = with_cost("untouched");
    let file = || {
        let file = fs::metadata(folder.path("v0")).unwrap();
        (file.ino(), file.mtime(), file.mtime_nsec(), folder.bytes("v0"))
    };
    let before = file();
    for (line, status) in [
        ("enter v0 0 0 0:1c --day 2026-11-15", 1),
        ("found v0 8 0", 1),
        ("found v0 0", 2),
        ("join v0 v9", 3),
        ("join v0 v0", 0),
        ("statement v0", 0),
    ] {
        assert_eq!(folder.van(line).status, status, "{line}");
        assert_eq!(file(), before, "{line}");
    }
    folder.done("delete v0 0 0");
    assert_ne!(file().0, before.0, "the new image is a file of its own");
    assert_eq!(folder.names(), ["v0"]);
}

#[test]
fn files_that_cannot_be_read_or_written() {
    let folder = with_cost("cannot");
    fs::create_dir(folder.path("folder")).unwrap();
    let no_file = "No such file or directory (os error 2)";
    let lines = [
        ("statement v9", format!("cannot read v9: {no_file}")),
        ("found v9 0 0", format!("cannot read v9: {no_file}")),
        ("join v0 v9", format!("cannot read v9: {no_file}")),
        ("raise v9 v8", format!("cannot read v9: {no_file}")),
        ("play v9", format!("cannot read v9: {no_file}")),
        ("play v0", "cannot read v0: it is no text, or too long".into()),
        ("play /dev/zero", "cannot read /dev/zero: it is no text, or too long".into()),
        ("check folder", "cannot read folder: Is a directory (os error 21)".into()),
        ("new v0 --van 0", "cannot write v0: it is there already".into()),
        ("new folder --van 0", "cannot write folder: it is there already".into()),
        ("new nowhere/v0 --van 0", format!("cannot write nowhere/v0: {no_file}")),
        ("new .. --van 0", "cannot write ..: it names no file".into()),
        ("new v1/ --van 0", "cannot write v1/: it names no file".into()),
    ];
    let before = (folder.bytes("v0"), folder.names());
    for (line, words) in lines {
        assert_eq!(folder.van(line), Ran::stopped(3, &format!("van: {words}")), "{line}");
    }
    folder.put("old", &Image::new(0, OWN_HOMES).0);
    let there = Ran::stopped(3, "van: cannot write v0: it is there already");
    assert_eq!(folder.van("raise old v0"), there);
    fs::remove_file(folder.path("old")).unwrap();
    assert_eq!((folder.bytes("v0"), folder.names()), before);

    fs::set_permissions(folder.path("v0"), Permissions::from_mode(0o444)).unwrap();
    let read_only = Ran::stopped(3, "van: cannot write v0: it is read-only");
    assert_eq!(folder.van("delete v0 0 0"), read_only);
    assert_eq!((folder.bytes("v0"), folder.names()), before);
}

#[test]
fn a_link_stays_one_and_permissions_stay() {
    let folder = with_cost("links");
    fs::create_dir(folder.path("there")).unwrap();
    fs::rename(folder.path("v0"), folder.path("there/v0")).unwrap();
    fs::set_permissions(folder.path("there/v0"), Permissions::from_mode(0o640)).unwrap();
    symlink("there/v0", folder.path("v0")).unwrap();
    folder.done("delete v0 0 0");
    assert!(fs::symlink_metadata(folder.path("v0")).unwrap().is_symlink());
    let mode = fs::metadata(folder.path("there/v0")).unwrap().permissions().mode();
    assert_eq!(mode & 0o777, 0o640);
    assert!(folder.shows("cost v0 0").contains("deleted"));
    assert_eq!(folder.names(), ["there", "v0"]);
}

/// Files of the names that `van` has for itself are no images.
#[test]
fn no_image_is_taken_for_a_lock() {
    let folder = with_cost("helpers");
    for name in [LOCK, TEMPORARY] {
        let words = format!("van: cannot write {name}: van has files of such names for itself");
        assert_eq!(folder.van(&format!("new {name} --van 0")), Ran::stopped(3, &words));
        folder.put(name, &folder.bytes("v0"));
        assert_eq!(folder.van(&format!("delete {name} 0 0")), Ran::stopped(3, &words));
        fs::remove_file(folder.path(name)).unwrap();
    }
    // Without the dot there is no danger.
    folder.done("new v0.van-lock --van 1");
    folder.done("delete v0 0 0");
    assert_eq!(folder.shows("check v0.van-lock"), "sound: van 1, version 3, 0 crews, 0 costs\n");
}

#[test]
fn a_file_may_have_any_name() {
    let folder = Folder::new("names");
    folder.done("new --van 0 -- --van");
    folder.done("found -- --van 0 0");
    assert_eq!(folder.shows("check -- --van"), "sound: van 0, version 3, 1 crew, 0 costs\n");
    assert_eq!(folder.names(), ["--van"]);
}

/// Who reads may stop reading, and who prints to a full disk is told.
#[test]
fn an_answer_that_cannot_be_printed() {
    let folder = with_cost("unprinted");
    let full = File::options().write(true).open("/dev/full").unwrap();
    let output = folder.command("check v0").stdout(full).output().unwrap();
    let words = "van: it is done, and the answer can't be printed: \
                 No space left on device (os error 28)";
    assert_eq!(Ran::of(output), Ran::stopped(3, words));

    let mut child = folder.command("check v0").stdout(Stdio::piped()).spawn().unwrap();
    drop(child.stdout.take());
    assert!(child.wait().unwrap().success());
}
