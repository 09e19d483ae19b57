//! A save that is ended at any of its stages leaves the old bytes or the new ones, whole.

use std::path::{Path, PathBuf};
use std::process::Command;
use std::{env, fs, process};

use owners::saving::{save, Stage};

const OLD: &[u8] = b"what was there before";
const NEW: [u8; 5_000] = [b'n'; 5_000];

/// In which variable a run that is to die finds its file and its stage.
const FILE: &str = "OWNERS_TEST_FILE";
const STAGE: &str = "OWNERS_TEST_STAGE";

const STAGES: [Stage; 5] =
    [Stage::Created, Stage::Half, Stage::Written, Stage::Synced, Stage::Renamed];

/// A folder of a test's own.
fn folder(name: &str) -> PathBuf {
    let folder = env::temp_dir().join(format!("owners-{name}-{}", process::id()));
    let _ = fs::remove_dir_all(&folder);
    fs::create_dir(&folder).unwrap();
    folder
}

/// Not a test of its own: the run that dies at a stage, where one is named.
#[test]
fn dies_where_it_is_told() {
    let (Some(file), Ok(stage)) = (env::var_os(FILE), env::var(STAGE)) else {
        return;
    };
    let stage = STAGES[stage.parse::<usize>().unwrap()];
    let _ = save(Path::new(&file), &NEW, &mut |at| {
        if at == stage {
            process::abort();
        }
    });
}

#[test]
fn whatever_stage_a_run_dies_at() {
    let folder = folder("dying");
    for (index, stage) in STAGES.iter().enumerate() {
        let file = folder.join("my filing");
        fs::write(&file, OLD).unwrap();
        let ended = Command::new(env::current_exe().unwrap())
            .args(["--exact", "dies_where_it_is_told"])
            .env(FILE, &file)
            .env(STAGE, index.to_string())
            .output()
            .unwrap();
        assert!(!ended.status.success(), "{stage:?}: the run did not die");
        let wanted = if *stage == Stage::Renamed { &NEW[..] } else { OLD };
        assert_eq!(fs::read(&file).unwrap(), wanted, "{stage:?}");
        save(&file, &NEW, &mut |_| ()).unwrap();
        assert_eq!(fs::read(&file).unwrap(), NEW, "{stage:?}: a later save");
    }
    fs::remove_dir_all(&folder).unwrap();
}

#[test]
fn a_save_that_fails_leaves_nothing_behind() {
    let folder = folder("failing");
    let place = folder.join("taken");
    fs::create_dir(&place).unwrap();
    assert!(save(&place, &NEW, &mut |_| ()).is_err());
    assert!(save(&folder.join("no folder/new"), &NEW, &mut |_| ()).is_err());
    let names: Vec<_> =
        fs::read_dir(&folder).unwrap().map(|entry| entry.unwrap().file_name()).collect();
    assert_eq!(names, ["taken"]);
    fs::remove_dir_all(&folder).unwrap();
}

#[cfg(unix)]
#[test]
fn permissions_stay() {
    use std::os::unix::fs::PermissionsExt;
    let folder = folder("permissions");
    let file = folder.join("mine");
    fs::write(&file, OLD).unwrap();
    fs::set_permissions(&file, fs::Permissions::from_mode(0o640)).unwrap();
    save(&file, &NEW, &mut |_| ()).unwrap();
    assert_eq!(fs::metadata(&file).unwrap().permissions().mode() & 0o777, 0o640);
    fs::remove_dir_all(&folder).unwrap();
}
