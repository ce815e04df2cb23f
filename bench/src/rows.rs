//! The table of rows. A new row is a line here, and a function of its name on each side.

use crate::row::{ExportedWork, Fourth, Round, Row, Work};
use crate::tables::{
    dedup_again, dedup_new, dedup_replace, dedup_replace_written, intern_again, intern_new,
    intern_new_ascending, intern_stream, map_append, map_entry, map_get, map_get_str, map_insert,
    map_iter, resolve, set_contains, set_insert, set_iter, set_union,
};
use crate::tables::{Colliding, Identifiers, MadeUp, Mangled, Names, Paths};
use crate::tables::{
    HashedInterner, OrderedMap, OrderedNames, OrderedSet, PlainDedup, PlainInterner, PlainTable,
    PlainTableNames, PlainTableSet, PlainTree, PlainTreeNames, PlainTreeSet, RustDedup,
    RustInterner,
};
use crate::{ours, plain, theirs};

/// The numbers of items of most rows.
pub const SIZES: [u64; 4] = [1 << 8, 1 << 12, 1 << 16, 1 << 20];

/// Those of colliding names, which take longest.
const SIZES_COLLIDING: [u64; 3] = [1 << 8, 1 << 12, 1 << 15];

/// The next index below `n`, a power of two: some bits of the state of a generator of random numbers.
pub fn next_index(state: &mut u64, n: u64) -> usize {
    *state = state
        .wrapping_mul(6364136223846793005)
        .wrapping_add(1442695040888963407);
    ((*state >> 32) & n.wrapping_sub(1)) as usize
}

const fn row(
    name: &'static str,
    round: Round,
    ours: ExportedWork,
    theirs: Work,
    plain: Work,
) -> Row {
    Row {
        name,
        round,
        ours,
        theirs,
        plain,
        fourth: None,
        operations: 1 << 24,
        least_rounds: 1,
        sizes: &SIZES,
    }
}

// The same of texts, which take longest.
const fn names(
    name: &'static str,
    round: Round,
    ours: ExportedWork,
    theirs: Work,
    plain: Work,
) -> Row {
    Row {
        operations: 1 << 19,
        sizes: SIZES.split_at(3).0,
        ..row(name, round, ours, theirs, plain)
    }
}

// The same, whose operations take longer.
const fn long(
    name: &'static str,
    round: Round,
    ours: ExportedWork,
    theirs: Work,
    plain: Work,
) -> Row {
    Row {
        operations: 1 << 21,
        ..row(name, round, ours, theirs, plain)
    }
}

// The same of a map or a set.
const fn table(
    name: &'static str,
    round: Round,
    ours: ExportedWork,
    kit: ExportedWork,
    theirs: Work,
    plain: Work,
) -> Row {
    Row {
        fourth: Some(Fourth::Kit(kit)),
        ..long(name, round, ours, theirs, plain)
    }
}

// The same of a walk, which is short beside the filling before it.
const fn walk(
    name: &'static str,
    ours: ExportedWork,
    kit: ExportedWork,
    theirs: Work,
    plain: Work,
) -> Row {
    Row {
        operations: 1 << 24,
        ..table(name, Round::Reads, ours, kit, theirs, plain)
    }
}

// Names that are interned, beside a hash table whose probes have no bound.
const fn interned(
    name: &'static str,
    ours: ExportedWork,
    [theirs, plain, unbounded]: [Work; 3],
) -> Row {
    Row {
        fourth: Some(Fourth::Unbounded(unbounded)),
        sizes: &SIZES,
        ..names(name, Round::Reads, ours, theirs, plain)
    }
}

// The same of new names of a kind.
const fn new_names<K: Names>(name: &'static str, ours: ExportedWork) -> Row {
    let sides: [Work; 3] = [
        intern_new::<RustInterner, K>,
        intern_new::<PlainInterner, K>,
        intern_new::<HashedInterner, K>,
    ];
    interned(name, ours, sides)
}

// The same of names that are there. At the most names a round is short beside the filling before it.
const fn names_again<K: Names>(name: &'static str, ours: ExportedWork) -> Row {
    let sides: [Work; 3] = [
        intern_again::<RustInterner, K>,
        intern_again::<PlainInterner, K>,
        intern_again::<HashedInterner, K>,
    ];
    Row {
        least_rounds: 8,
        ..interned(name, ours, sides)
    }
}

#[rustfmt::skip]
pub const ROWS: &[Row] = &[
    row("`StableVec` push", Round::Fills, ours::wasmi_bench_vec_push, theirs::vec_push, plain::vec_push),
    row("`StableVec` get, random", Round::Reads, ours::wasmi_bench_vec_get, theirs::vec_get, plain::vec_get),
    row("`StableVec` walk", Round::Reads, ours::wasmi_bench_vec_iter, theirs::vec_iter, plain::vec_iter),
    row("`StableVec` walk backward", Round::Reads, ours::wasmi_bench_vec_iter_rev, theirs::vec_iter_rev, plain::vec_iter_rev),
    row("`StableVec` walk by `slices`", Round::Reads, ours::wasmi_bench_vec_slices, theirs::vec_iter, plain::vec_iter),
    row("`StableVec` `iter_mut`, adding 1", Round::Reads, ours::wasmi_bench_vec_iter_mut, theirs::vec_iter_mut, plain::vec_iter_mut),
    row("`StableVec` swap", Round::Reads, ours::wasmi_bench_vec_swap, theirs::vec_swap, plain::vec_swap),
    row("`StableVec` clone", Round::Reads, ours::wasmi_bench_vec_clone, theirs::vec_clone, plain::vec_clone),
    row("`StableVec` equality", Round::Reads, ours::wasmi_bench_vec_eq, theirs::vec_eq, plain::vec_eq),
    row("`StableArena` alloc", Round::Fills, ours::wasmi_bench_arena_alloc, theirs::arena_alloc, plain::arena_alloc),
    row("`StableArena` `alloc_many`", Round::Fills, ours::wasmi_bench_arena_alloc_many, theirs::arena_alloc_many, plain::arena_alloc_many),
    row("`StableArena` walk, `usize` keys", Round::Reads, ours::wasmi_bench_arena_iter_usize, theirs::arena_iter::<usize>, plain::arena_iter),
    row("`StableArena` walk, `u32` keys", Round::Reads, ours::wasmi_bench_arena_iter_u32, theirs::arena_iter::<u32>, plain::arena_iter),
    row("`Arena` alloc", Round::Fills, ours::wasmi_bench_dense_alloc, theirs::dense_alloc, plain::arena_alloc),
    row("`Arena` `alloc_many`", Round::Fills, ours::wasmi_bench_dense_alloc_many, theirs::dense_alloc_many, plain::arena_alloc_many),
    row("`Arena` get, random", Round::Reads, ours::wasmi_bench_dense_get, theirs::dense_get, plain::arena_get),
    row("`Arena` walk, `usize` keys", Round::Reads, ours::wasmi_bench_dense_iter_usize, theirs::dense_iter::<usize>, plain::arena_iter),
    row("`Arena` walk, `u32` keys", Round::Reads, ours::wasmi_bench_dense_iter_u32, theirs::dense_iter::<u32>, plain::arena_iter),
    row("`Arena` `iter_mut`, adding the key", Round::Reads, ours::wasmi_bench_dense_iter_mut, theirs::dense_iter_mut, plain::arena_iter_mut),
    row("`ComponentVec` set, one after another", Round::Fills, ours::wasmi_bench_component_set_new, theirs::component_set_new, plain::component_set_new),
    row("`ComponentVec` set, random", Round::Reads, ours::wasmi_bench_component_set, theirs::component_set, plain::component_set),
    row("`ComponentVec` get, random", Round::Reads, ours::wasmi_bench_component_get, theirs::component_get, plain::component_get),
    row("`HeadVec` push", Round::Fills, ours::wasmi_bench_head_push, theirs::head_push, plain::vec_push),
    row("`HeadVec` push and pop", Round::Reads, ours::wasmi_bench_head_push_pop, theirs::head_push_pop, plain::vec_push_pop),
    table("Ordered `Map` insert", Round::Fills, ours::wasmi_bench_ordered_map_insert, ours::wasmi_bench_btree_map_insert, map_insert::<OrderedMap>, map_insert::<PlainTree>),
    table("Ordered `Map` insert, ascending", Round::Fills, ours::wasmi_bench_ordered_map_append, ours::wasmi_bench_btree_map_append, map_append::<OrderedMap>, map_append::<PlainTree>),
    table("Ordered `Map` get, random", Round::Reads, ours::wasmi_bench_ordered_map_get, ours::wasmi_bench_btree_map_get, map_get::<OrderedMap>, map_get::<PlainTree>),
    walk("Ordered `Map` walk", ours::wasmi_bench_ordered_map_iter, ours::wasmi_bench_btree_map_iter, map_iter::<OrderedMap>, map_iter::<PlainTree>),
    table("Ordered `Map` `entry` and `or_insert`, counting", Round::Fills, ours::wasmi_bench_ordered_map_entry, ours::wasmi_bench_btree_map_entry, map_entry::<OrderedMap>, map_entry::<PlainTree>),
    table("Ordered `Set` insert", Round::Fills, ours::wasmi_bench_ordered_set_insert, ours::wasmi_bench_btree_set_insert, set_insert::<OrderedSet>, set_insert::<PlainTreeSet>),
    table("Ordered `Set` contains, random", Round::Reads, ours::wasmi_bench_ordered_set_contains, ours::wasmi_bench_btree_set_contains, set_contains::<OrderedSet>, set_contains::<PlainTreeSet>),
    walk("Ordered `Set` walk", ours::wasmi_bench_ordered_set_iter, ours::wasmi_bench_btree_set_iter, set_iter::<OrderedSet>, set_iter::<PlainTreeSet>),
    walk("Ordered `Set` walk over a union", ours::wasmi_bench_ordered_set_union, ours::wasmi_bench_btree_set_union, set_union::<OrderedSet>, set_union::<PlainTreeSet>),
    table("Hashed `Map` insert", Round::Fills, ours::wasmi_bench_hashed_map_insert, ours::wasmi_bench_hash_map_insert, map_insert::<PlainTable>, map_insert::<PlainTable>),
    table("Hashed `Map` get, random", Round::Reads, ours::wasmi_bench_hashed_map_get, ours::wasmi_bench_hash_map_get, map_get::<PlainTable>, map_get::<PlainTable>),
    walk("Hashed `Map` walk", ours::wasmi_bench_hashed_map_iter, ours::wasmi_bench_hash_map_iter, map_iter::<PlainTable>, map_iter::<PlainTable>),
    table("Hashed `Map` `entry` and `or_insert`, counting", Round::Fills, ours::wasmi_bench_hashed_map_entry, ours::wasmi_bench_hash_map_entry, map_entry::<PlainTable>, map_entry::<PlainTable>),
    table("Hashed `Set` insert", Round::Fills, ours::wasmi_bench_hashed_set_insert, ours::wasmi_bench_hash_set_insert, set_insert::<PlainTableSet>, set_insert::<PlainTableSet>),
    table("Hashed `Set` contains, random", Round::Reads, ours::wasmi_bench_hashed_set_contains, ours::wasmi_bench_hash_set_contains, set_contains::<PlainTableSet>, set_contains::<PlainTableSet>),
    walk("Hashed `Set` walk", ours::wasmi_bench_hashed_set_iter, ours::wasmi_bench_hash_set_iter, set_iter::<PlainTableSet>, set_iter::<PlainTableSet>),
    walk("Hashed `Set` walk over a union", ours::wasmi_bench_hashed_set_union, ours::wasmi_bench_hash_set_union, set_union::<PlainTableSet>, set_union::<PlainTableSet>),
    long("`DedupArena` alloc, new values", Round::Fills, ours::wasmi_bench_dedup_alloc_new, dedup_new::<RustDedup>, dedup_new::<PlainDedup>),
    long("`DedupArena` alloc, values that are there", Round::Reads, ours::wasmi_bench_dedup_alloc_again, dedup_again::<RustDedup>, dedup_again::<PlainDedup>),
    long("`DedupArena` replace", Round::Reads, ours::wasmi_bench_dedup_replace, dedup_replace, dedup_replace),
    Row { operations: 1 << 16, sizes: SIZES.split_at(2).0, ..row("`DedupArena` replace, items written to before", Round::Reads, ours::wasmi_bench_dedup_replace_written, dedup_replace_written, dedup_replace_written) },
    names("Ordered `Map` get by text, random", Round::Reads, ours::wasmi_bench_ordered_map_get_str, map_get_str::<OrderedNames>, map_get_str::<PlainTreeNames>),
    names("Hashed `Map` get by text, random", Round::Reads, ours::wasmi_bench_hashed_map_get_str, map_get_str::<PlainTableNames>, map_get_str::<PlainTableNames>),
    new_names::<MadeUp>("`StringInterner` intern, new made-up names", ours::wasmi_bench_intern_new),
    new_names::<Paths>("`StringInterner` intern, new paths", ours::wasmi_bench_intern_new_paths),
    new_names::<Mangled>("`StringInterner` intern, new mangled names", ours::wasmi_bench_intern_new_mangled),
    new_names::<Identifiers>("`StringInterner` intern, new identifiers", ours::wasmi_bench_intern_new_identifiers),
    Row { sizes: &SIZES_COLLIDING, ..new_names::<Colliding>("`StringInterner` intern, new colliding names", ours::wasmi_bench_intern_new_colliding) },
    interned("`StringInterner` intern, new paths, ascending", ours::wasmi_bench_intern_new_ascending, [intern_new_ascending::<RustInterner>, intern_new_ascending::<PlainInterner>, intern_new_ascending::<HashedInterner>]),
    names_again::<MadeUp>("`StringInterner` intern, made-up names that are there", ours::wasmi_bench_intern_again),
    names_again::<Paths>("`StringInterner` intern, paths that are there", ours::wasmi_bench_intern_again_paths),
    names_again::<Mangled>("`StringInterner` intern, mangled names that are there", ours::wasmi_bench_intern_again_mangled),
    names_again::<Identifiers>("`StringInterner` intern, identifiers that are there", ours::wasmi_bench_intern_again_identifiers),
    Row { sizes: &SIZES_COLLIDING, ..names_again::<Colliding>("`StringInterner` intern, colliding names that are there", ours::wasmi_bench_intern_again_colliding) },
    interned("`StringInterner` intern, identifiers, few often", ours::wasmi_bench_intern_stream, [intern_stream::<RustInterner>, intern_stream::<PlainInterner>, intern_stream::<HashedInterner>]),
    Row { operations: 1 << 24, ..names("`StringInterner` resolve, random", Round::Reads, ours::wasmi_bench_resolve, resolve::<RustInterner>, resolve::<PlainInterner>) },
];
