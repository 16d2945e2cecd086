//! The functions of `include/basin.h`, each behind a safe one that takes slices
//! and, for what is told, references. The signature of each stands once, in the
//! table below. This is the only place with unsafe code, but for the tests' own
//! memory.

use crate::Parameters;

/// The table of the functions. An entry is a signature in safe Rust, with a comma
/// after every parameter, and two things are made of it: the declaration of C's
/// `basin_NAME`, and the safe function `NAME` that calls it. Both return a
/// number. What a parameter is in C goes by its type:
///
/// | In an entry | In C | What it is |
/// |---|---|---|
/// | `p: &Parameters` | `w, n, kind, g, c, r` | the scalars of a state |
/// | `x: &[T]` | `const T *x, size_t x_len` | a list that is only read |
/// | `x: &mut [T]` | `T *x, size_t x_len` | a list that is filled or stepped |
/// | `x: &mut T`, `x: &mut [T; N]` | `T *x` | a place for one number, for N |
/// | `x: T` | `T x` | a number |
macro_rules! functions {
    ($($(#[$doc:meta])* fn $name:ident($($parameters:tt)*);)*) => {
        $(function! { [$(#[$doc])* $name] [] [] [] $($parameters)* })*
    };
}

/// One entry. Each turn takes the first parameter that is left, and adds it to
/// three lists: the parameters of the safe function, the types of C, and what
/// the first passes to the second. The kinds go in the order of the table above:
/// `&mut [T]` would fit `&mut T` as well, and all would fit `T`.
macro_rules! function {
    ($head:tt [$($safe:tt)*] [$($c:tt)*] [$($passed:tt)*] $p:ident: &Parameters, $($left:tt)*) => {
        function! {
            $head
            [$($safe)* $p: &Parameters,]
            [$($c)* usize, usize, u8, i64, i64, i64,]
            [$($passed)* $p.w, $p.n, $p.kind, $p.g, $p.c, $p.r,]
            $($left)*
        }
    };
    ($head:tt [$($safe:tt)*] [$($c:tt)*] [$($passed:tt)*] $x:ident: &[$t:ty], $($left:tt)*) => {
        function! {
            $head
            [$($safe)* $x: &[$t],]
            [$($c)* *const $t, usize,]
            [$($passed)* $x.as_ptr(), $x.len(),]
            $($left)*
        }
    };
    ($head:tt [$($safe:tt)*] [$($c:tt)*] [$($passed:tt)*] $x:ident: &mut [$t:ty], $($left:tt)*) => {
        function! {
            $head
            [$($safe)* $x: &mut [$t],]
            [$($c)* *mut $t, usize,]
            [$($passed)* $x.as_mut_ptr(), $x.len(),]
            $($left)*
        }
    };
    ($head:tt [$($safe:tt)*] [$($c:tt)*] [$($passed:tt)*] $x:ident: &mut $t:ty, $($left:tt)*) => {
        function! { $head [$($safe)* $x: &mut $t,] [$($c)* *mut $t,] [$($passed)* $x,] $($left)* }
    };
    ($head:tt [$($safe:tt)*] [$($c:tt)*] [$($passed:tt)*] $x:ident: $t:ty, $($left:tt)*) => {
        function! { $head [$($safe)* $x: $t,] [$($c)* $t,] [$($passed)* $x,] $($left)* }
    };
    // None is left.
    ([$(#[$doc:meta])* $name:ident] [$($safe:tt)*] [$($c:ty,)*] [$($passed:expr,)*]) => {
        $(#[$doc])*
        pub fn $name($($safe)*) -> u64 {
            extern "C" {
                #[link_name = concat!("basin_", stringify!($name))]
                fn of_c($(_: $c),*) -> u64;
            }
            // SAFETY: every function of the library takes any numbers and any
            // lengths, reads and writes only within what it is lent, and keeps
            // none of it. Here a pointer with a length after it is that of one
            // slice, and one without is that of a reference to just what is
            // declared. What is written is borrowed mutably, so it is apart from
            // all else that is lent.
            unsafe { of_c($($passed),*) }
        }
    };
}

functions! {
    /// The version of the library.
    fn version();

    /// 0, and `rounded` is rnd(a/b); or 4, and `rounded` is untouched.
    fn rnd(
        a: i64, b: i64,
        rounded: &mut i64,
    );

    /// The number of the refusal, 0 where `q` is filled; `answer` begins with the
    /// number and the values told with it; its other places are 0.
    fn potential_vorticity(
        p: &Parameters, h: &[i64], b: &[i64], u: &[i64], v: &[i64], barriers: &[u8],
        q: &mut [i64],
        answer: &mut [u64; 8],
    );

    /// The number of the refusal, 0 where `dh`, `du` and `dv` are filled; `answer`
    /// as above.
    fn tendencies(
        p: &Parameters, h: &[i64], b: &[i64], u: &[i64], v: &[i64], barriers: &[u8],
        q: &[i64],
        dh: &mut [i64], du: &mut [i64], dv: &mut [i64],
        answer: &mut [u64; 8],
    );

    /// The number of the refusal, 0 where `doubles` are those of the cell; `answer`
    /// as above, with 0 for exact or 1 for near after a 0.
    fn probe(
        p: &Parameters, h: &[i64], b: &[i64], u: &[i64], v: &[i64], barriers: &[u8],
        q: &[i64],
        cell: usize,
        doubles: &mut [f64; 3],
        answer: &mut [u64; 8],
    );

    /// The number of the refusal, 0 where `dh`, `du` and `dv` are filled; `answer`
    /// as of a probe.
    fn probe_grid(
        p: &Parameters, h: &[i64], b: &[i64], u: &[i64], v: &[i64], barriers: &[u8],
        q: &[i64],
        dh: &mut [f64], du: &mut [f64], dv: &mut [f64],
        answer: &mut [u64; 8],
    );

    /// The number of the refusal, 0 where `h`, `u` and `v` are stepped; `answer`
    /// as above.
    fn step(
        p: &Parameters, h: &mut [i64], b: &[i64], u: &mut [i64], v: &mut [i64],
        barriers: &[u8],
        inflow: &[i64],
        work: &mut [i64],
        answer: &mut [u64; 8],
    );

    /// The same of up to `steps` steps; the steps done are told last.
    fn run(
        p: &Parameters, h: &mut [i64], b: &[i64], u: &mut [i64], v: &mut [i64],
        barriers: &[u8],
        inflow: &[i64],
        steps: u64,
        work: &mut [i64],
        answer: &mut [u64; 8],
    );

    /// The number of the refusal, 0 where `total` is total depth; `answer` as above.
    fn total_depth(
        p: &Parameters, h: &[i64], b: &[i64], u: &[i64], v: &[i64], barriers: &[u8],
        total: &mut i64,
        answer: &mut [u64; 8],
    );

    /// The same of four times total energy.
    fn total_energy(
        p: &Parameters, h: &[i64], b: &[i64], u: &[i64], v: &[i64], barriers: &[u8],
        total: &mut i64,
        answer: &mut [u64; 8],
    );

    /// The number of the refusal, 0 where the first places of `record` have the
    /// record; `answer` as above, with the number of its bytes after a 0.
    fn write(
        p: &Parameters, h: &[i64], b: &[i64], u: &[i64], v: &[i64], barriers: &[u8],
        seconds: u64, milliseconds: u64,
        record: &mut [u8],
        answer: &mut [u64; 8],
    );

    /// The number of the refusal, 0 where `h`, `b`, `u`, `v` and `barriers` are
    /// filled and `constants` are G, c and R; `answer` as above, with w, n, kind,
    /// seconds and milliseconds after a 0.
    fn read(
        record: &[u8],
        h: &mut [i64], b: &mut [i64], u: &mut [i64], v: &mut [i64],
        barriers: &mut [u8],
        constants: &mut [i64; 3],
        answer: &mut [u64; 8],
    );

    /// The number of the refusal; `answer` as above, with the record, 1 or 2,
    /// straight after it, or with what the comparison comes to after a 0.
    fn compare(
        first: &[u8], second: &[u8],
        answer: &mut [u64; 8],
    );
}
