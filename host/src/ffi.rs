//! The proved calls of include/recorder.h. Unsafe code is here, in signals.rs and in system.rs alone.
//!
//! Each call is lent slices, so what the header asks of a buffer holds: the pointer is not null and is aligned, the memory is initialised, and
//! no two buffers of a call overlap but those that are only read. The library keeps no pointer. tools/interface_test.py holds the declarations
//! here to the header and the header to crates/exported_c/src/lib.rt; the test below holds the structs' layouts to those of a C compiler. The header's
//! version is that of the calls, and stays where the tool alone changes: the test holds it to the tool's first number, and to be no later.
#![allow(unsafe_code)]

/// A reflection's index.
#[repr(C)]
#[derive(Clone, Copy)]
pub struct Reflection {
    pub h: u32,
    pub k: u32,
    pub l: u32,
}

/// A grid point's index.
#[repr(C)]
#[derive(Clone, Copy)]
pub struct GridPoint {
    pub x: u32,
    pub y: u32,
    pub z: u32,
}

/// An axis: its length, and its factor list as octal digits.
#[repr(C)]
#[derive(Clone, Copy)]
pub struct Axis {
    pub length: u32,
    pub factors: u32,
}

/// A job, handed in and handed back by value.
#[repr(C)]
#[derive(Clone, Copy)]
pub struct Job {
    pub group: u32,
    pub modulus: u32,
    pub a: Axis,
    pub b: Axis,
    pub c: Axis,
    pub state: u32,
}

#[repr(C)]
pub struct Answer {
    pub number: u32,
    pub job: Job,
}

#[repr(C)]
pub struct FileAnswer {
    pub number: u32,
    pub place: u32,
    pub job: Job,
}

/// What the header of a factor file names: group, modulus, axes, how many records follow, and how many numbers the volume has.
#[repr(C)]
#[derive(Clone, Copy)]
pub struct FileHeader {
    pub number: u32,
    pub group: u32,
    pub modulus: u32,
    pub a: Axis,
    pub b: Axis,
    pub c: Axis,
    pub records: u32,
    pub numbers: u32,
}

/// The places of the fewest records at fault: none, one or two of them.
#[repr(C)]
pub struct Faults {
    pub count: u32,
    pub first: u32,
    pub second: u32,
}

/// A unit cell for viewers: edges in angstrom, and three angles in degrees where `angles` is 3, or gamma alone where it is 1.
#[repr(C)]
#[derive(Clone, Copy)]
pub struct UnitCell {
    pub angles: u32,
    pub a: f32,
    pub b: f32,
    pub c: f32,
    pub alpha: f32,
    pub beta: f32,
    pub gamma: f32,
}

#[repr(C)]
pub struct WriteAnswer {
    pub number: u32,
    pub written: usize,
}

/// How long the file is that would be written.
#[repr(C)]
pub struct Length {
    pub number: u32,
    pub length: usize,
}

#[repr(C)]
pub struct Density {
    pub number: u32,
    pub density: i32,
}

/// Of a combined map.
#[repr(C)]
pub struct CombinedDensity {
    pub number: u32,
    pub density: i64,
}

#[repr(C)]
pub struct FactorValue {
    pub number: u32,
    pub a: u32,
    pub b: u32,
}

/// A sum over the whole cell, a residue.
#[repr(C)]
pub struct Power {
    pub number: u32,
    pub power: u32,
}

/// A lane of a scheduler: the lines of its job that are left, and the job.
#[repr(C)]
#[derive(Clone, Copy)]
pub struct Lane {
    pub left: u32,
    pub job: Job,
}

/// A scheduler, handed in and handed back by value.
#[repr(C)]
#[derive(Clone, Copy)]
pub struct Scheduler {
    pub lanes: [Lane; 8],
    pub last: u32,
}

#[repr(C)]
pub struct NextAnswer {
    pub number: u32,
    pub lane: u32,
}

#[repr(C)]
pub struct SchedulerAnswer {
    pub number: u32,
    pub scheduler: Scheduler,
}

/// The lane that a turn served, whether that was its last, 1 or 0, and then the job.
#[repr(C)]
pub struct TurnAnswer {
    pub number: u32,
    pub lane: u32,
    pub finished: u32,
    pub job: Job,
    pub scheduler: Scheduler,
}

extern "C" {
    fn recorder_version() -> u32;
    fn recorder_factor_list(length: u32, out: *mut u8, out_length: usize) -> WriteAnswer;
    fn recorder_open(
        group: u32,
        modulus: u32,
        kind: u32,
        n1: u32,
        n2: u32,
        n3: u32,
        factors1: *const u8,
        count1: usize,
        factors2: *const u8,
        count2: usize,
        factors3: *const u8,
        count3: usize,
        volume: *mut u32,
        volume_length: usize,
    ) -> Answer;
    fn recorder_open_file(file: *const u8, file_length: usize, volume: *mut u32, volume_length: usize) -> FileAnswer;
    fn recorder_file_header(file: *const u8, file_length: usize) -> FileHeader;
    fn recorder_file_faults(file: *const u8, file_length: usize) -> Faults;
    fn recorder_file_length(job: Job, volume: *const u32, volume_length: usize) -> Length;
    fn recorder_write_file(job: Job, volume: *const u32, volume_length: usize, out: *mut u8, out_length: usize) -> WriteAnswer;
    fn recorder_record(job: Job, at: Reflection, a: u32, b: u32, volume: *mut u32, volume_length: usize) -> Answer;
    fn recorder_synthesis(job: Job, volume: *mut u32, volume_length: usize, scratch: *mut u32, scratch_length: usize) -> Answer;
    fn recorder_analysis(job: Job, volume: *mut u32, volume_length: usize, scratch: *mut u32, scratch_length: usize) -> Answer;
    fn recorder_point(job: Job, at: GridPoint, volume: *const u32, volume_length: usize) -> Density;
    fn recorder_factor(job: Job, at: Reflection, volume: *const u32, volume_length: usize) -> FactorValue;
    fn recorder_map_power(job: Job, volume: *const u32, volume_length: usize) -> Power;
    fn recorder_factor_power(job: Job, volume: *const u32, volume_length: usize) -> Power;
    fn recorder_combine(
        first: Job,
        first_map: *const u32,
        first_length: usize,
        second: Job,
        second_map: *const u32,
        second_length: usize,
        output: *mut i64,
        output_length: usize,
    ) -> WriteAnswer;
    fn recorder_combined_point(group: u32, n1: u32, n2: u32, n3: u32, map: *const i64, map_length: usize, at: GridPoint) -> CombinedDensity;
    fn recorder_section(
        group: u32,
        n1: u32,
        n2: u32,
        n3: u32,
        map: *const i64,
        map_length: usize,
        z: u32,
        out: *mut u8,
        out_length: usize,
    ) -> WriteAnswer;
    fn recorder_mrc(
        group: u32,
        n1: u32,
        n2: u32,
        n3: u32,
        map: *const i64,
        map_length: usize,
        cell: UnitCell,
        out: *mut u8,
        out_length: usize,
    ) -> WriteAnswer;
    fn recorder_correlate(
        n1: u32,
        n2: u32,
        n3: u32,
        factors1: *const u8,
        count1: usize,
        factors2: *const u8,
        count2: usize,
        factors3: *const u8,
        count3: usize,
        a: *const i64,
        a_length: usize,
        b: *const i64,
        b_length: usize,
        output: *mut i64,
        output_length: usize,
        work1: *mut u32,
        work1_length: usize,
        work2: *mut u32,
        work2_length: usize,
        work3: *mut u32,
        work3_length: usize,
        scratch: *mut u32,
        scratch_length: usize,
    ) -> WriteAnswer;
    fn recorder_line(
        modulus: u32,
        kind: u32,
        direction: u32,
        length: u32,
        factors: *const u8,
        count: usize,
        line: *mut u32,
        line_length: usize,
        scratch: *mut u32,
        scratch_length: usize,
    ) -> u32;
    fn recorder_drift(
        run: *const i64,
        run_length: usize,
        w: u32,
        least: *mut i64,
        least_length: usize,
        greatest: *mut i64,
        greatest_length: usize,
        least_at: *mut u64,
        least_at_length: usize,
        greatest_at: *mut u64,
        greatest_at_length: usize,
    ) -> WriteAnswer;
    fn recorder_scheduler_new() -> Scheduler;
    fn recorder_scheduler_next(scheduler: Scheduler) -> NextAnswer;
    fn recorder_scheduler_enter(
        scheduler: Scheduler,
        lane: u32,
        job: Job,
        volume: *const u32,
        volume_length: usize,
        scratch: *mut u32,
        scratch_length: usize,
    ) -> SchedulerAnswer;
    fn recorder_scheduler_turn(scheduler: Scheduler, volume: *mut u32, volume_length: usize, scratch: *mut u32, scratch_length: usize) -> TurnAnswer;
    fn recorder_scheduler_withdraw(scheduler: Scheduler, lane: u32) -> SchedulerAnswer;
}

/// The version of the library that was linked: the tool is linked with the library of its own tree, and a test holds the two together.
#[cfg_attr(not(test), allow(dead_code))]
pub fn version() -> u32 {
    unsafe { recorder_version() }
}

pub fn factor_list(length: u32, out: &mut [u8]) -> WriteAnswer {
    unsafe { recorder_factor_list(length, out.as_mut_ptr(), out.len()) }
}

pub fn open(group: u32, modulus: u32, kind: u32, lengths: [u32; 3], lists: [&[u8]; 3], volume: &mut [u32]) -> Answer {
    let [n1, n2, n3] = lengths;
    let [f1, f2, f3] = lists;
    unsafe {
        recorder_open(
            group,
            modulus,
            kind,
            n1,
            n2,
            n3,
            f1.as_ptr(),
            f1.len(),
            f2.as_ptr(),
            f2.len(),
            f3.as_ptr(),
            f3.len(),
            volume.as_mut_ptr(),
            volume.len(),
        )
    }
}

pub fn open_file(file: &[u8], volume: &mut [u32]) -> FileAnswer {
    unsafe { recorder_open_file(file.as_ptr(), file.len(), volume.as_mut_ptr(), volume.len()) }
}

pub fn file_header(file: &[u8]) -> FileHeader {
    unsafe { recorder_file_header(file.as_ptr(), file.len()) }
}

pub fn file_faults(file: &[u8]) -> Faults {
    unsafe { recorder_file_faults(file.as_ptr(), file.len()) }
}

pub fn file_length(job: Job, volume: &[u32]) -> Length {
    unsafe { recorder_file_length(job, volume.as_ptr(), volume.len()) }
}

pub fn write_file(job: Job, volume: &[u32], out: &mut [u8]) -> WriteAnswer {
    unsafe { recorder_write_file(job, volume.as_ptr(), volume.len(), out.as_mut_ptr(), out.len()) }
}

pub fn record(job: Job, at: Reflection, a: u32, b: u32, volume: &mut [u32]) -> Answer {
    unsafe { recorder_record(job, at, a, b, volume.as_mut_ptr(), volume.len()) }
}

pub fn synthesis(job: Job, volume: &mut [u32], scratch: &mut [u32]) -> Answer {
    unsafe { recorder_synthesis(job, volume.as_mut_ptr(), volume.len(), scratch.as_mut_ptr(), scratch.len()) }
}

pub fn analysis(job: Job, volume: &mut [u32], scratch: &mut [u32]) -> Answer {
    unsafe { recorder_analysis(job, volume.as_mut_ptr(), volume.len(), scratch.as_mut_ptr(), scratch.len()) }
}

pub fn point(job: Job, at: GridPoint, volume: &[u32]) -> Density {
    unsafe { recorder_point(job, at, volume.as_ptr(), volume.len()) }
}

pub fn factor(job: Job, at: Reflection, volume: &[u32]) -> FactorValue {
    unsafe { recorder_factor(job, at, volume.as_ptr(), volume.len()) }
}

pub fn map_power(job: Job, volume: &[u32]) -> Power {
    unsafe { recorder_map_power(job, volume.as_ptr(), volume.len()) }
}

pub fn factor_power(job: Job, volume: &[u32]) -> Power {
    unsafe { recorder_factor_power(job, volume.as_ptr(), volume.len()) }
}

/// Each map with its job.
pub fn combine(first: (Job, &[u32]), second: (Job, &[u32]), output: &mut [i64]) -> WriteAnswer {
    let ((job1, map1), (job2, map2)) = (first, second);
    unsafe { recorder_combine(job1, map1.as_ptr(), map1.len(), job2, map2.as_ptr(), map2.len(), output.as_mut_ptr(), output.len()) }
}

/// The tool holds a combined map as two maps of digits, and reads those.
#[cfg_attr(not(test), allow(dead_code))]
pub fn combined_point(group: u32, lengths: [u32; 3], map: &[i64], at: GridPoint) -> CombinedDensity {
    let [n1, n2, n3] = lengths;
    unsafe { recorder_combined_point(group, n1, n2, n3, map.as_ptr(), map.len(), at) }
}

pub fn section(group: u32, lengths: [u32; 3], map: &[i64], z: u32, out: &mut [u8]) -> WriteAnswer {
    let [n1, n2, n3] = lengths;
    unsafe { recorder_section(group, n1, n2, n3, map.as_ptr(), map.len(), z, out.as_mut_ptr(), out.len()) }
}

pub fn mrc(group: u32, lengths: [u32; 3], map: &[i64], cell: UnitCell, out: &mut [u8]) -> WriteAnswer {
    let [n1, n2, n3] = lengths;
    unsafe { recorder_mrc(group, n1, n2, n3, map.as_ptr(), map.len(), cell, out.as_mut_ptr(), out.len()) }
}

/// Both maps, and the three work volumes.
pub fn correlate(
    lengths: [u32; 3],
    lists: [&[u8]; 3],
    maps: [&[i64]; 2],
    output: &mut [i64],
    work: [&mut [u32]; 3],
    scratch: &mut [u32],
) -> WriteAnswer {
    let ([n1, n2, n3], [f1, f2, f3], [a, b], [work1, work2, work3]) = (lengths, lists, maps, work);
    unsafe {
        recorder_correlate(
            n1,
            n2,
            n3,
            f1.as_ptr(),
            f1.len(),
            f2.as_ptr(),
            f2.len(),
            f3.as_ptr(),
            f3.len(),
            a.as_ptr(),
            a.len(),
            b.as_ptr(),
            b.len(),
            output.as_mut_ptr(),
            output.len(),
            work1.as_mut_ptr(),
            work1.len(),
            work2.as_mut_ptr(),
            work2.len(),
            work3.as_mut_ptr(),
            work3.len(),
            scratch.as_mut_ptr(),
            scratch.len(),
        )
    }
}

pub fn line(modulus: u32, kind: u32, direction: u32, length: u32, list: &[u8], line: &mut [u32], scratch: &mut [u32]) -> u32 {
    unsafe {
        recorder_line(modulus, kind, direction, length, list.as_ptr(), list.len(), line.as_mut_ptr(), line.len(), scratch.as_mut_ptr(), scratch.len())
    }
}

pub fn drift(run: &[i64], w: u32, least: &mut [i64], greatest: &mut [i64], least_at: &mut [u64], greatest_at: &mut [u64]) -> WriteAnswer {
    unsafe {
        recorder_drift(
            run.as_ptr(),
            run.len(),
            w,
            least.as_mut_ptr(),
            least.len(),
            greatest.as_mut_ptr(),
            greatest.len(),
            least_at.as_mut_ptr(),
            least_at.len(),
            greatest_at.as_mut_ptr(),
            greatest_at.len(),
        )
    }
}

pub fn new_scheduler() -> Scheduler {
    unsafe { recorder_scheduler_new() }
}

pub fn next_lane(scheduler: Scheduler) -> NextAnswer {
    unsafe { recorder_scheduler_next(scheduler) }
}

pub fn enter(scheduler: Scheduler, lane: u32, job: Job, volume: &[u32], scratch: &mut [u32]) -> SchedulerAnswer {
    unsafe { recorder_scheduler_enter(scheduler, lane, job, volume.as_ptr(), volume.len(), scratch.as_mut_ptr(), scratch.len()) }
}

pub fn turn(scheduler: Scheduler, volume: &mut [u32], scratch: &mut [u32]) -> TurnAnswer {
    unsafe { recorder_scheduler_turn(scheduler, volume.as_mut_ptr(), volume.len(), scratch.as_mut_ptr(), scratch.len()) }
}

pub fn withdraw(scheduler: Scheduler, lane: u32) -> SchedulerAnswer {
    unsafe { recorder_scheduler_withdraw(scheduler, lane) }
}

#[cfg(test)]
mod layout {
    use super::*;
    use std::mem::{align_of, offset_of, size_of};
    use std::path::{Path, PathBuf};
    use std::process::Command;

    /// A struct's name in recorder.h, its size and alignment here, and its fields with their offsets.
    struct Layout(&'static str, usize, usize, Vec<(&'static str, usize)>);

    macro_rules! layout {
        ($name:literal, $kind:ident, $($field:ident),+) => {
            Layout($name, size_of::<$kind>(), align_of::<$kind>(), vec![$((stringify!($field), offset_of!($kind, $field))),+])
        };
    }

    fn layouts() -> Vec<Layout> {
        vec![
            layout!("recorder_reflection", Reflection, h, k, l),
            layout!("recorder_grid_point", GridPoint, x, y, z),
            layout!("recorder_axis", Axis, length, factors),
            layout!("recorder_job", Job, group, modulus, a, b, c, state),
            layout!("recorder_answer", Answer, number, job),
            layout!("recorder_file_answer", FileAnswer, number, place, job),
            layout!("recorder_header", FileHeader, number, group, modulus, a, b, c, records, numbers),
            layout!("recorder_faults", Faults, count, first, second),
            layout!("recorder_cell", UnitCell, angles, a, b, c, alpha, beta, gamma),
            layout!("recorder_write_answer", WriteAnswer, number, written),
            layout!("recorder_length", Length, number, length),
            layout!("recorder_density", Density, number, density),
            layout!("recorder_combined_density", CombinedDensity, number, density),
            layout!("recorder_factor_value", FactorValue, number, a, b),
            layout!("recorder_power", Power, number, power),
            layout!("recorder_lane", Lane, left, job),
            layout!("recorder_scheduler", Scheduler, lanes, last),
            layout!("recorder_next_answer", NextAnswer, number, lane),
            layout!("recorder_scheduler_answer", SchedulerAnswer, number, scheduler),
            layout!("recorder_turn_answer", TurnAnswer, number, lane, finished, job, scheduler),
        ]
    }

    /// A C program that fails to compile where a layout differs.
    fn assertions() -> String {
        let tool = env!("CARGO_PKG_VERSION").split('.').fold(0, |all, part| 100 * all + part.parse::<u32>().expect("a number"));
        let version = format!("RECORDER_VERSION / 10000 == {} && RECORDER_VERSION <= {tool}", tool / 10000);
        let mut text = format!("#include \"recorder.h\"\n_Static_assert({version}, \"version of the tool\");\n");
        for Layout(name, size, alignment, fields) in layouts() {
            text += &format!("_Static_assert(sizeof({name}) == {size}, \"size of {name}\");\n");
            text += &format!("_Static_assert(_Alignof({name}) == {alignment}, \"alignment of {name}\");\n");
            for (field, offset) in fields {
                text += &format!("_Static_assert(offsetof({name}, {field}) == {offset}, \"{name}.{field}\");\n");
            }
        }
        text
    }

    fn compiles(name: &str, text: &str) -> bool {
        let source: PathBuf = std::env::temp_dir().join(format!("{name}_{}.c", std::process::id()));
        std::fs::write(&source, text).expect("a temporary file");
        let header = Path::new(env!("CARGO_MANIFEST_DIR")).join("../include");
        let said = Command::new("gcc").args(["-std=c11", "-fsyntax-only", "-I"]).arg(header).arg(&source).output();
        std::fs::remove_file(&source).expect("the temporary file again");
        let said = said.expect("gcc runs");
        eprint!("{}", String::from_utf8_lossy(&said.stderr));
        said.status.success()
    }

    #[test]
    fn structs_are_laid_out_as_the_header_says() {
        assert!(compiles("layout", &assertions()));
    }

    #[test]
    fn the_library_has_the_version_of_its_header() {
        let said = format!("#include \"recorder.h\"\n_Static_assert(RECORDER_VERSION == {}, \"version\");\n", version());
        assert!(compiles("version", &said));
    }

    /// Of P1, whose points all have a place: (z N1 + x) (N2 + 2) + y.
    #[test]
    fn a_point_of_a_combined_map_has_its_place() {
        let map: Vec<i64> = (0..6 * 4 * 12).collect();
        for (x, y, z) in [(0, 0, 0), (3, 9, 5), (1, 7, 2), (2, 0, 4)] {
            let found = combined_point(0, [4, 10, 6], &map, GridPoint { x, y, z });
            assert_eq!((found.number, found.density), (0, i64::from((z * 4 + x) * 12 + y)));
        }
        assert_eq!(combined_point(0, [4, 10, 6], &map, GridPoint { x: 4, y: 0, z: 0 }).number, 10);
        assert_eq!(combined_point(0, [4, 10, 6], &map[1..], GridPoint { x: 4, y: 0, z: 0 }).number, 6);
        assert_eq!(combined_point(5, [4, 14, 6], &[], GridPoint { x: 4, y: 0, z: 0 }).number, 8);
    }

    #[test]
    fn another_layout_is_noticed() {
        let other = assertions().replace("offsetof(recorder_job, state) == 32", "offsetof(recorder_job, state) == 28");
        assert!(other != assertions() && !compiles("other", &other));
    }
}
