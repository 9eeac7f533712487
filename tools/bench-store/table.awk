# Reads lines STORE ROOM CLAUSES MODE STEP INSTRUCTIONS, and prints two tables: what a clause or a use costs in each step, which is the run
# with the clauses less that without one; and the run without one.
{
    if ($3 > 0) { clauses[$2] = $3; full[$1, $2, $4, $5] = $6 } else { bare[$1, $2, $4, $5] = $6 }
}

# The instructions of a step; none is no count at all, as where a step has no function of its own.
function of(counts, store, room, mode, step) {
    if (!((store, room, mode, step) in counts)) {
        print "no count of " step ", " store ", " room > "/dev/stderr"
        exit 1
    }
    return counts[store, room, mode, step]
}

function head(title,    s, r) {
    printf "| %s |", title
    for (s = 1; s <= 2; s++)
        for (r = 1; r <= 3; r++)
            printf " %s, C = %d |", stores[s], rooms[r]
    printf "\n|---|---|---|---|---|---|---|\n"
}

# A step of both stores, or of the store that `only` names; it is over `share` things for each clause.
function each(title, mode, step, share, only,    s, r) {
    printf "| %s |", title
    for (s = 1; s <= 2; s++)
        for (r = 1; r <= 3; r++)
            if (only == "" || only == stores[s])
                printf " %.1f |", (of(full, stores[s], rooms[r], mode, step) - of(bare, stores[s], rooms[r], mode, step)) / (share * clauses[rooms[r]])
            else
                printf " |"
    printf "\n"
}

function fixed(title, mode, step,    s, r) {
    printf "| %s |", title
    for (s = 1; s <= 2; s++)
        for (r = 1; r <= 3; r++)
            printf " %d |", of(bare, stores[s], rooms[r], mode, step)
    printf "\n"
}

END {
    split("scanned indexed", stores, " ")
    split("64 512 4096", rooms, " ")
    head("For each clause or use")
    each("entering, no index, a clause", "late", "enter_all", 1)
    each("entering, with an index, a clause", "early", "enter_all", 1)
    each("walking an own list, a clause", "late", "walk_own", 1)
    # a clause of three literals has two uses
    each("index on, a use", "late", "put_index_on", 2)
    each("walking the uses of a literal, a use", "late", "walk_uses", 2, "indexed")
    # each literal's search goes along all that is indexed
    each("walking the uses of a literal, an indexed clause", "late", "walk_uses", 2048, "scanned")
    # half of the clauses are removed, and half retired
    each("removing, with an index, a clause", "late", "remove_half", 0.5)
    each("retiring, with an index, a clause", "late", "retire_rest", 0.5)
    each("index off, a retired clause", "late", "take_index_off", 0.5)
    each("emptying, with an index, a clause", "early", "make_empty", 1)
    printf "\n"
    head("Without a clause")
    fixed("making a store", "late", "make")
    fixed("index on", "late", "put_index_on")
    fixed("index off", "late", "take_index_off")
    fixed("emptying", "early", "make_empty")
    fixed("walking all own lists", "late", "walk_own")
    fixed("walking the uses of all literals", "late", "walk_uses")
}
