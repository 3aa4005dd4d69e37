"""Turns the crates of the assignment search into a Rust program, to measure a change before it is proved.

    bench/as_rust.py FOLDER && cargo build --release --offline --manifest-path FOLDER/Cargo.toml
    FOLDER/target/release/search GRAPH [BUDGET [WORKERS [VEHICLE=ROW ..]]]

Contracts, ghost items and tests are left out; what the crates use of Rattle's library and of others (vectors whose calls
answer with an error, allocators, drawn numbers) is written here in Rust. The program reads a graph as search.py writes them
and prints its rows, the bound, the cost, the nodes and the microseconds. Each vehicle keeps its first row unless a word names
another among its rows, counted from 0: that is where a rider must be served, whom the last plan picks later. Nothing is proved of it, and its seconds are near those of the proved program, not the
same: use it to compare two states of the sources.
"""

import os
import re
import sys

TOP = os.path.join(os.path.dirname(os.path.abspath(__file__)), "..", "crates")
CRATES = ["plan_rules", "row_tables", "plan_drafts", "assignment_search"]
SHIMS = ["pool_base", "arrayvec", "rand_xoshiro"]

POOL_BASE = """
#[derive(Debug, Clone, Copy)]
pub struct OutOfMemory;

pub mod shim {
    pub use crate::OutOfMemory;
    use std::ops::{Deref, DerefMut};
    use std::vec::Vec as Plain;

    pub type AllocError = OutOfMemory;
    #[derive(Clone, Copy, Debug)]
    pub struct Global;
    #[derive(Debug, PartialEq, Eq, PartialOrd, Ord)]
    pub struct Vec<T>(pub Plain<T>);
    type Done = Result<(), OutOfMemory>;

    impl<T> Deref for Vec<T> {
        type Target = [T];
        #[inline(always)]
        fn deref(&self) -> &[T] { &self.0 }
    }
    impl<T> DerefMut for Vec<T> {
        #[inline(always)]
        fn deref_mut(&mut self) -> &mut [T] { &mut self.0 }
    }
    impl<T> Vec<T> {
        #[inline]
        pub fn new(_: Global) -> Self { Vec(Plain::new()) }
        #[inline]
        pub fn push(&mut self, item: T) -> Done { self.0.push(item); Ok(()) }
        #[inline]
        pub fn pop(&mut self) -> Option<T> { self.0.pop() }
        #[inline]
        pub fn clear(&mut self) { self.0.clear() }
        #[inline]
        pub fn truncate(&mut self, count: usize) { self.0.truncate(count) }
        pub fn remove(&mut self, place: usize) -> T { self.0.remove(place) }
        pub fn insert(&mut self, place: usize, item: T) -> Done { self.0.insert(place, item); Ok(()) }
        #[inline]
        pub fn as_slice(&self) -> &[T] { &self.0 }
        #[inline]
        pub fn as_mut_slice(&mut self) -> &mut [T] { &mut self.0 }
    }
    impl<T: Copy> Vec<T> {
        pub fn extend_from_slice(&mut self, items: &[T]) -> Done { self.0.extend_from_slice(items); Ok(()) }
        pub fn resize(&mut self, count: usize, item: T) -> Done { self.0.resize(count, item); Ok(()) }
        pub fn from_slice(_: Global, items: &[T]) -> Result<Self, OutOfMemory> { Ok(Vec(items.to_vec())) }
    }
    impl<T: Copy + Ord> Vec<T> {
        pub fn sort(&mut self) -> Done { self.0.sort(); Ok(()) }
    }
    impl<'a, T> IntoIterator for &'a Vec<T> {
        type Item = &'a T;
        type IntoIter = std::slice::Iter<'a, T>;
        fn into_iter(self) -> Self::IntoIter { self.0.iter() }
    }
    impl<T> IntoIterator for Vec<T> {
        type Item = T;
        type IntoIter = std::vec::IntoIter<T>;
        fn into_iter(self) -> Self::IntoIter { self.0.into_iter() }
    }
    pub trait Threads {}
    pub struct Machine;
    impl Threads for Machine {}
    pub mod thread {
        use super::Threads;
        pub fn for_each_mut<R: Threads, T: Send, F: Fn(usize, &mut T) + Sync>(_: &R, items: &mut [T], threads: usize, f: &F) {
            let size = items.len().div_ceil(threads).max(1);
            std::thread::scope(|scope| {
                for (number, part) in items.chunks_mut(size).enumerate() {
                    scope.spawn(move || part.iter_mut().enumerate().for_each(|(place, item)| f(number * size + place, item)));
                }
            });
        }
    }

    #[inline]
    pub fn filled<T: Clone>(item: T, count: usize) -> Result<Vec<T>, OutOfMemory> { Ok(Vec(vec![item; count])) }

    #[derive(Debug)]
    pub struct BinaryHeap<T: Ord>(std::collections::BinaryHeap<T>);
    impl<T: Ord> BinaryHeap<T> {
        pub fn new(_: Global) -> Self { BinaryHeap(std::collections::BinaryHeap::new()) }
        pub fn push(&mut self, item: T) -> Done { self.0.push(item); Ok(()) }
        pub fn pop(&mut self) -> Option<T> { self.0.pop() }
        pub fn peek(&self) -> Option<&T> { self.0.peek() }
        pub fn len(&self) -> usize { self.0.len() }
    }
}
"""

ARRAYVEC = """
#[derive(Clone, Copy, Debug)]
pub struct ArrayVec<T, const N: usize> { len: usize, items: [T; N] }
impl<T: Copy + Default, const N: usize> ArrayVec<T, N> {
    pub fn new() -> Self { ArrayVec { len: 0, items: [T::default(); N] } }
    pub fn push(&mut self, item: T) { self.items[self.len] = item; self.len += 1; }
    pub fn is_full(&self) -> bool { self.len == N }
    #[inline]
    pub fn len(&self) -> usize { self.len }
    #[inline]
    pub fn as_slice(&self) -> &[T] { &self.items[..self.len] }
}
"""

RAND_XOSHIRO = """
pub mod rand_core {
    pub trait Rng { fn next_u64(&mut self) -> u64; }
    pub trait SeedableRng { fn seed_from_u64(seed: u64) -> Self; }
}
use rand_core::{Rng, SeedableRng};

pub struct SplitMix64(u64);
impl SeedableRng for SplitMix64 {
    fn seed_from_u64(seed: u64) -> Self { SplitMix64(seed) }
}
impl Rng for SplitMix64 {
    fn next_u64(&mut self) -> u64 {
        self.0 = self.0.wrapping_add(0x9e3779b97f4a7c15);
        let z = (self.0 ^ (self.0 >> 30)).wrapping_mul(0xbf58476d1ce4e5b9);
        let z = (z ^ (z >> 27)).wrapping_mul(0x94d049bb133111eb);
        z ^ (z >> 31)
    }
}
pub struct Xoshiro256PlusPlus([u64; 4]);
impl SeedableRng for Xoshiro256PlusPlus {
    fn seed_from_u64(seed: u64) -> Self {
        let mut mix = SplitMix64(seed);
        Xoshiro256PlusPlus([mix.next_u64(), mix.next_u64(), mix.next_u64(), mix.next_u64()])
    }
}
impl Rng for Xoshiro256PlusPlus {
    #[inline]
    fn next_u64(&mut self) -> u64 {
        let s = &mut self.0;
        let next = s[0].wrapping_add(s[3]).rotate_left(23).wrapping_add(s[0]);
        let moved = s[1] << 17;
        s[2] ^= s[0];
        s[3] ^= s[1];
        s[1] ^= s[2];
        s[0] ^= s[3];
        s[2] ^= moved;
        s[3] = s[3].rotate_left(45);
        next
    }
}
"""

MAIN = """
use arrayvec::ArrayVec;
use plan_rules::{TripGraph, TripRow};
use pool_base::shim::{Global, Machine, Vec};

fn main() {
    let words: std::vec::Vec<String> = std::env::args().collect();
    let bytes = std::fs::read(&words[1]).expect("a graph");
    let budget = words.get(2).map_or(200, |word| word.parse().expect("a budget"));
    let workers = words.get(3).map_or(1, |word| word.parse().expect("a number of workers"));
    let number = |at: usize, width: usize| {
        (0..width).rev().fold(0usize, |sum, place| sum * 256 + bytes[at + place] as usize)
    };
    let (vehicles, riders, penalty, count) = (number(0, 8), number(8, 8), number(16, 8), number(24, 8));
    let costs = 40 + 4 * (vehicles + 1);
    let ends = costs + 8 * count;
    let members = ends + 4 * (count + 1);
    let (mut rows, mut held) = (Vec::new(Global), Vec::new(Global));
    for vehicle in 0..vehicles {
        let first = number(40 + 4 * vehicle, 4);
        let kept = words.iter().skip(4).filter_map(|word| word.split_once('='));
        let kept = kept.filter(|(place, _)| place.parse() == Ok(vehicle)).map(|(_, row)| row.parse().expect("a row"));
        held.push(Some(first as u32 + kept.last().unwrap_or(0u32))).expect("memory");
        for row in first..number(44 + 4 * vehicle, 4) {
            let mut trip: ArrayVec<usize, 6> = ArrayVec::new();
            for rider in number(ends + 4 * row, 4)..number(ends + 4 * row + 4, 4) {
                trip.push(number(members + 2 * rider, 2));
            }
            let cost = number(costs + 8 * row, 8) as u64;
            rows.push(TripRow { vehicle, riders: trip, cost }).expect("memory");
        }
    }
    let graph = TripGraph::new(Global, vehicles, riders, penalty as u32, rows, held).ok().expect("a good graph");
    let start = std::time::Instant::now();
    let found = assignment_search::search_by(&Machine, Global, &graph, budget, workers, &plan_drafts::RelaxationDrafter).ok().expect("memory");
    let took = start.elapsed().as_micros();
    let nodes = found.tree.nodes().len();
    println!("rows {count} bound {} cost {} nodes {nodes} microseconds {took}", found.bound, found.cost);
}
"""


def without_block(text, pattern):
    """The text without what this pattern begins, up to the brace that ends it."""
    while match := re.search(pattern, text, flags=re.M):
        end, depth = match.end(), 1
        while depth > 0:
            depth += (text[end] == "{") - (text[end] == "}")
            end += 1
        text = text[: match.start()] + text[end:].removeprefix("\n")
    return text


def derived(match):
    names = [name.strip() for name in match[1].split(",")]
    kept = [name for name in names if name in ("Clone", "Copy", "Debug", "PartialEq", "Eq", "PartialOrd", "Ord", "Default")]
    return f"#[derive({', '.join(kept)})]" if kept else ""


def as_rust(text):
    text = without_block(text, r"^impl Model for [^{]*\{")
    text = without_block(text, r"^[ \t]*(requires|ensures)( \w+)? \{")
    text = re.sub(r"^\s*ghost [^;]*;\n", "", text, flags=re.M)
    text = re.sub(r"^\s*(pub )?ghost \w+: \{[^}]*\},\n", "", text, flags=re.M)
    text = re.sub(r"prove!\([^;]*\);", "", text)
    text = re.sub(r"#!?\[tactic\([^)]*\)\]|#\[error[^\]]*\]|#\[from\]", "", text)
    text = re.sub(r"#\[cfg\(test\)\]\s*mod \w+;", "", text)
    text = re.sub(r"#\[derive\(([^)]*)\)\]", derived, text)
    # Rattle compares an enum without data as it stands.
    text = re.sub(r"^pub enum Ended", "#[derive(PartialEq)]\npub enum Ended", text, flags=re.M)
    text = text.replace("<T: Drop>", "<T>")
    text = re.sub(r"use (std::alloc|std::collections|std::marker|std::thread|pool_base)(::[^;]*)?;", "", text)
    text = re.sub(r"vec!\[in (?:self\.)?alloc; ([^;\]]*); ((?:[^\[\]]|\[[^\]]*\])*?)\]", r"filled(\1, \2)", text)
    lines = text.split("\n")
    place = next(k for k, line in enumerate(lines) if line.strip() and not line.startswith("//!"))
    lines.insert(place, "#[allow(unused_imports)]\nuse pool_base::shim::*;")
    return "\n".join(lines)


def write(folder, name, text):
    os.makedirs(os.path.dirname(os.path.join(folder, name)), exist_ok=True)
    with open(os.path.join(folder, name), "w") as file:
        file.write(text)


def write_crate(folder, name, uses):
    lines = ["[package]", f'name = "{name}"', 'version = "0.1.0"', 'edition = "2021"', "[dependencies]"]
    write(folder, f"{name}/Cargo.toml", "\n".join(lines + [f'{used} = {{ path = "../{used}" }}' for used in uses]) + "\n")


def main():
    if len(sys.argv) != 2:
        sys.exit(__doc__)
    folder = sys.argv[1]
    for name, text in zip(SHIMS, (POOL_BASE, ARRAYVEC, RAND_XOSHIRO)):
        write_crate(folder, name, [])
        write(folder, f"{name}/src/lib.rs", text)
    for place, name in enumerate(CRATES):
        write_crate(folder, name, SHIMS + CRATES[:place])
        source = os.path.join(TOP, name, "src")
        for parent, _, files in os.walk(source):
            for file in files:
                path = os.path.relpath(os.path.join(parent, file), source)
                if file.endswith(".rt") and file != "tests.rt":
                    with open(os.path.join(parent, file)) as rattle:
                        write(folder, f"{name}/src/{path[:-3]}.rs", as_rust(rattle.read()))
    write_crate(folder, "search", SHIMS + CRATES)
    write(folder, "search/src/main.rs", MAIN)
    members = ", ".join(f'"{name}"' for name in SHIMS + CRATES + ["search"])
    profile = '[profile.release]\nlto = "thin"\ncodegen-units = 1\npanic = "abort"\ndebug = 1\n'
    write(folder, "Cargo.toml", f'[workspace]\nresolver = "2"\nmembers = [{members}]\n{profile}')


if __name__ == "__main__":
    main()
