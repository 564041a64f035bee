"""The texts of the two pages of tools/promise.py, and what the names of the toolchain's library mean."""

PROMISE_WORDS = """\
# The promise

This is all that has to be believed of output, messages, status and memory: the theorem about a run, and the definitions
that it rests on. A prover has checked that `ptrun::run`, and the function that the program calls with its files, do
what the contracts say that name them. [BEYOND.md](BEYOND.md) has the rest of these contracts, [PROVED.md](PROVED.md)
where each is stated. `make docs` writes this page from crates/*/specs, word for word, but for `abbrev`, `pub`, imports,
line breaks, and the type before the name of a constructor that two types have.

## In sentences

`m` is what the words mean (`spec_of_args`), `w` has the bytes of each input, `r` what was received of each, `before`
the sinks before a run and `o` its result. The formal lines are fields of `IsExact`, which is claimed where no read, no
write of the output and no request for memory failed (`IsExactUnlessFailed`), and of `IsRun` and what it cites, which
hold whatever fails. Of the program, `out` is standard output, or the file that `uniq` names, and messages go to
standard error; its words are those after `ptext`, of which the first is the name of the tool. What a real file has is
not known to the prover (`left` and `accepted` are `None`): of its bytes these lines say nothing by themselves. But the
function is one for files and for inputs and sinks whose bytes are known ([PROVED.md](PROVED.md)).

| Sentence | Formal line | What it does not say |
|---|---|---|
| If nothing fails, the output is exactly that of the words and the inputs | FIELD(ptrun.Runs.IsExact.out) | anything of inputs of which only the count of bytes is known, as real files, or of 2^63 bytes and more (`HasBytes`) |
| So are the messages | FIELD(ptrun.Runs.IsExact.messages) | which of them were written if a message could not be |
| So is the status | FIELD(ptrun.Runs.IsExact.status_is) | |
| Fail or not, at most so many bytes of lines are in the store at any moment | FIELD(ptrun.Runs.IsRun.bounded) | what else takes memory: buffers, spare room, and up to 8,192 bytes of a line that `uniq` keeps beside the store |
| The reported peak is that of the store | the clause `memory` of `report_of`, which `run` calls | this of `run`, whose contract names no store: one that reports 0 would meet it |
| Whatever fails, what was written is a beginning of the right output, however the inputs may go on | FIELD(ptrun.Runs.IsRun.is_prefix) | how much was written |
| A run ends with all output, messages and status; or it stopped, with status 1, for a failure that happened | FIELD(ptrun.Runs.IsRun.ends) | which failure is named, if several of a kind happened. A failed write is named before all others; after a failed read no request for memory fails |
| A run that stopped has the messages about the operands before, and one about the failure | `message ≡ operand_messages m w n ++ fault_message m.tool m.names fault` | how many operands these are, if a write or memory failed |
| If a read failed and no write did, that read is named | FIELD(ptrun.Runs.IsRun.names_failed_read) | |
| and what is decided is written | FIELD(ptrun.Runs.IsRun.decided_is_written) | that more than `decided` is written: of 80,000 bytes of lines `a` `uniq` has decided nothing, as they are one run; of lines `a`, `a`, `b` the first run |
| What is decided is not nothing: the whole output is what is decided by inputs that are known whole, and of `uniq` also the last run (the law `output_is_decided`) | `output job positions r = decided job positions r ++ at_end job positions r`, where `r` is `all_received w` | what `paste`, `comm` and `join` decide before the end of an input. Over standard input alone, the law says of `cut`, `tr` and `uniq` that all output for complete lines is decided, but for the last run of `uniq` |
| Inputs may go on as any that are consistent with what was received | `AreInputsConsistent r w` | |
| If the words are no command, one message names the first fault, the status is 2 and nothing is read or written | `spec_of_result tool (Err fault) = message_only (usage_text tool fault) 2`, whose `reads_nothing` (BEYOND.md) is true | |
| If memory ran out while the words were read, one message says so, and the status is 1 | `spec_unless_memory` | when that happens |

A file that could not be opened is no failure: it has a message, and the status is 1. These are the clauses of the
contract of `run` itself:

```
CONTRACT
```

There `command` is what was read of the words: `CommandPost` says that it is the command or the fault that
`command_of_args` gives, or a fault for want of memory, which `is_memory_fault` tells. `spec_of_parsed` is
`spec_unless_memory` by that, `file_count` the number of the command's files, if there is one, and `HasToolName` says
that the first word is the name of a tool. `words_view`, `sinks` and `outcome` are the words, the two sinks and the result
as plain values. BEYOND.md defines all eight, and `IsUnchangedIfUnread`, under [Values of the
code](BEYOND.md#values-of-the-code) and before. `x.now` and `x.entry` are the value of a parameter at the call, `x.old`
and `x.new` what it refers to before and after it; `W.state` and `E.state` give the state of a sink.

## Words

The **terminator** ends a line: newline, or byte 0 with `-z`. What was **received** of an input is the bytes that were
read of it, and whether its end was reached. An input is **consistent** with that if it begins so, and equals it if the
end was reached. Output is **decided** by what was received if it stays, however the inputs go on; `decided` says how much
of it has to be written: of an incomplete line nothing by `cut`, and nothing of the last **run**, the adjacent lines with
equal **keys**, by `uniq`. `comm` and `join` merge two inputs key by key, and write an **entry** a line; the **group** of a
key is the second input's lines with it. A **disorder** is the first line of an input whose key comes before that of the
previous line. If both inputs have one, that with the lesser previous key (with `-r`, the greater) is reported, that of
the first input if these are equal, and no entry of a key after it is written.
The **store** keeps lines. Inputs have **positions**: 0 is standard input, i + 1 is file i. Operands are read **in
turn** (`cut`, `tr`, `paste -s`), or **together** (the others). A file that could not be opened is **unopened**.

## Signs

`(x : A) → B` is a function of x, or *for every x*; `A → B` also *implies*; `×` is a pair, or *and*; `⊎` *or*; `⊥`
*false*; `⊤` *true*. `λ x. e` is the function of x that gives e; `let x = a in e` is e with a for x; `f x y` is f of x
and y. `{X : Type 0} →` stands for a parameter that is not written. A list of type `List A` is `[]` or `x ∷ xs`, an item
before a list; an `Option A` is `None` or `Some x`; a `Result A B` is `Ok x` or `Err y`; a `Bool` is `true` or `false`.
A byte is a number (`ℕ`), and so is a letter. `A × B × C` has the parts `p.0`, `p.1` and `p.2`. A record has fields,
`r.field`; `record r { f = x; }` is r but for f. A record that is a statement, as `IsRun`, holds if there are values for
those of its fields that are values, with which its other fields hold. A field and a definition may have one name:
after a dot, and before `=` or `:` in a record, it is the field's. `zero` is 0, and `suc n` is n + 1. A definition
by several lines is that of the first line that fits. A line such as `Side = Side.First | Side.Second` is a type of the
code, by its variants or its fields. A name after `one.` or `jobs.` is that of another module. In tables, **chosen** says
that POSIX leaves it open.

From the toolchain's library:

LIBRARY

## Definitions

`make definitions` has the prover compute them on random commands, and compares the results with the tools of the system
(where POSIX decides) and with a model in Python. Lines are counted without comments.

PARTS
"""

BEYOND_WORDS = """\
# Beyond the promise

What the contracts of a whole run say beyond output, messages, status and memory, for who asks for more than
[PROMISE.md](PROMISE.md): which inputs are not touched, how far the output may lag behind the input, how many slots the
store needs, and which files are opened under which names. Nothing there rests on this page, but for fields of `IsRun`
and of `CommandSpec` that say these things.

| Sentence | Formal line | What it does not say |
|---|---|---|
| Inputs that were not begun are unchanged, and operands that are done were read to their ends | `untouched` and `ended` of `IsRunBeyond` | |
| If memory ran out, something was left to do | `left` of `IsRunBeyond` | that there really was no memory |
| After any failure, all output that was decided two blocks (16,384 bytes) of input earlier is written, but for at most one block after a failed write | `bounded_lag` of `IsRunBeyond` | anything while a run goes on, or of more than `decided` |
| Unless a write failed, all output is flushed, once | `flushed` and `flushes` of `IsRunBeyond` | of a run that is to read nothing, or of bytes that were unflushed before it |
| If the words are no command, or an input that has to be there is not, nothing is read, written or kept | `reads_nothing` of `run` | |
| The store has no more slots than these lines need | `slots` of `IsRunInStore` | how much memory a slot takes |
| The files that the words name are opened in order, each once, and no other; the output file is created if all inputs were opened | `RunOverFilesPost` of `run_over_files` | |
| The same of the files of the system | `PerformPost` of `perform` | which files: it states only that there are such calls, tied to no file. What was opened and created is read by eye, in five bodies ([PROVED.md](PROVED.md)) |

From the toolchain's library, beside the names that the first page explains:

LIBRARY

## Definitions

PARTS
"""

# Names, what they are, and an example: two terms that the prover computes to be equal (`make definitions`), or a text.
# In terms `[1, 2]` stands for `1 ∷ 2 ∷ []`, and a text in quotes for its bytes.
LIBRARY = [
    ("◌+◌ ◌*◌ ◌-◌ ◌%◌ ◌^◌", "arithmetic of natural numbers; a difference is at least 0", ("3 - 5", "0")),
    ("◌≡◌ ◌<◌ ◌≤◌", "statements about values", "`2 ≡ 2` holds"),
    ("◌≢◌", "two values are not equal", "`2 ≢ 3` holds"),
    ("◌==◌ nat_lt nat_le is_in_range",
     "tests of numbers, which give a Bool: equal, less, at most, from one number to another",
     ("nat_lt 1 2", "true")),
    ("◌&&◌ ◌||◌ not", "and, or, not, of Bools", ("true && false", "false")),
    ("if◌then◌else◌ cond", "a choice by a Bool", ("cond true 1 2", "1")),
    ("max min", "the greater and the lesser of two numbers", ("max 2 3", "3")),
    ("◌++◌", "two lists, one after the other", ("[1] ++ [2]", "[1, 2]")),
    ("length", "the number of items", ("length [7, 8]", "2")),
    ("take", "the first items", ("take 1 [7, 8]", "[7]")),
    ("drop", "the other items", ("drop 1 [7, 8]", "[8]")),
    ("take_while", "the items before the first that fails a test", ("take_while (λ n. n == 7) [7, 8, 7]", "[7]")),
    ("slice_get", "the item at an index, from 0", ("slice_get [7] 1", "None")),
    ("slice_index_or slice_index", "the item at an index, or else a value, or 0", ("slice_index_or [7] 1 2", "2")),
    ("last_or", "the last item as an Option, or else a value", ("last_or None [7, 8]", "Some 8")),
    ("map", "a function of each item", ("map (λ n. n + 1) [1, 2]", "[2, 3]")),
    ("filter", "the items that pass a test", ("filter (λ n. n == 1) [1, 2]", "[1]")),
    ("filter_map", "the values of a function that gives Options, without `None`",
     ("filter_map (λ o. o) [None, Some 1]", "[1]")),
    ("flat_map",
     "the lists that a function gives, one after the other", ("flat_map (λ n. [n, n]) [1, 2]", "[1, 1, 2, 2]")),
    ("zip", "pairs of items of two lists, as long as both last", ("zip [1, 2] [7]", "[(1, 7)]")),
    ("enumerate_from",
     "items with their indices, counted from a number", ("enumerate_from 0 [7, 8]", "[(0, 7), (1, 8)]")),
    ("range_with_len", "numbers in order, from a number", ("range_with_len 3 2", "[3, 4]")),
    ("replicate", "an item so many times", ("replicate 2 7", "[7, 7]")),
    ("remove", "a list without the item at an index, if it has one", ("remove [7, 8, 9] 1", "[7, 9]")),
    ("set", "a list with another item at an index", ("set [7, 8] 1 0", "[7, 0]")),
    ("list_any list_all", "some item, or each, passes a test", ("list_any (λ n. n == 2) [1, 2]", "true")),
    ("count_by", "how many items pass a test", ("count_by (λ n. n == 1) [1, 1]", "2")),
    ("sum_by", "the sum of a function's values", ("sum_by (λ n. n + 1) [1, 2]", "5")),
    ("fold", "a function of two, from a value through the list", ("fold max 0 [1, 3]", "3")),
    ("find", "the first item that passes a test", ("find (λ n. n == 2) [1]", "None")),
    ("slice_split",
     "the pieces before, between and after the items that pass a test, of which any may be empty",
     ('slice_split (λ b. b == 44) "a,,b,"', '["a", [], "b", []]')),
    ("join_with_byte", "pieces with a byte between them", ('join_with_byte 44 ["a", "b"]', '"a,b"')),
    ("onto_first",
     "an item put before the first list, or a list of its own", ("onto_first 7 [[8], [9]]", "[[7, 8], [9]]")),
    ("bytes_eq", "two texts are equal", ('bytes_eq "a" "a"', "true")),
    ("slice_cmp nat_cmp Ordering is_lt is_gt is_le match_ordering flip_args",
     "the order of texts and of numbers: an Ordering, tests of it, a choice of three by it, if less, equal or greater; "
     "and a function of two in the other order", ("match_ordering (nat_cmp 1 2) 7 8 9", "7")),
    ("codes byte String", "the bytes of a text in quotes, or its only one", ('"ab"', "[97, 98]")),
    ("decimal digits_value", "a number in digits; the number of digits in a base", ('digits_value 8 "12"', "10")),
    ("encode_utf8", "the bytes of a character", ("encode_utf8 97", "[97]")),
    ("is_ascii_digit is_ascii_lowercase", "kinds of bytes", ("is_ascii_digit 48", "true")),
    ("is_some is_none", "tests of an Option", ("is_some (Some 7)", "true")),
    ("unwrap_or", "the value, or else another", ("unwrap_or (Some 7) 0", "7")),
    ("option_map option_map_or", "a function of the value, if there is one; or else another value",
     ("option_map_or (λ n. n + 1) (Some 7) 0", "8")),
    ("option_or option_and_then option_to_list",
     "the first that is `Some`; a function that gives an Option; none or one item", ("option_to_list (Some 7)", "[7]")),
    ("IfSome IsSome", "a statement of the value, if there is one; that there is one", ""),
    ("is_ok result_ok result_err result_unwrap_or result_map_both",
     "the same of a Result: a test, its value, its error, its value or another, a function of either", ""),
    ("ok_or", "a value, or else this error", ("ok_or (Some 7) 0", "Ok 7")),
    ("All", "a statement holds for each item", "`All (λ n. n ≡ 1) [1, 1]` holds"),
    ("append_known prepend_known", "bytes after, or before, those that are known (`None`: unknown)",
     ("append_known (Some [7]) [8]", "Some [7, 8]")),
    ("IsAtEnd", "no bytes are left, if those that are left are known", "`IsAtEnd (Some [])` holds"),
    ("Bor", "a reference of the code: `x.now` is what it refers to", ""),
]
# Names that `Signs` explains.
SIGNS = "ℕ List Option Some None Result Ok Err Bool true false zero suc ◌∷◌ [] ◌⊎◌ ⊤ ◌↔◌".split()
# Corner cases for the table of a section: the words of an example in tools/definitions/examples.py, and what POSIX says
# of it (paraphrased), or that it is chosen.
CORNERS = {
    "uniq": [
        ("uniq -c", "a last line without its newline is a line; **chosen**, as POSIX speaks of text files"),
        ("uniq -f 2", "of a line with fewer fields the empty string is compared"),
        ("uniq -f 1 -s 1", "bytes are left out after fields"),
    ],
    "cut": [
        ("cut -d : -f 2,2,1", "each field once, in the order of the input; a line without the delimiter as it is"),
        ("cut -s -d : -f 5",
         "with `-s` a line without the delimiter is left out; an empty line for no field is **chosen**"),
        ("cut -f 1 - -", "a second `-` is empty: **chosen**"),
        ("cut -b 1,,2", "an empty element is refused: **chosen**"),
    ],
    "paste": [
        ("paste -s -", "an empty file is a line that is only a newline"),
        ("paste - - - -", "each `-` takes a line in turn"),
        ("paste f g", "without `-s` nothing is written if a file cannot be opened"),
    ],
    "comm": [
        ("comm f g", "common as often as both have a line, then the remaining ones: the order is **chosen**"),
        ("comm -z f g", "results for inputs out of order are unspecified; `-z` is not of POSIX: **chosen**"),
    ],
    "join": [
        ("join -t , -v 1 f g", "with `-t` each separator counts, so a field may be empty"),
        ("join f g", "all pairs of lines with a common key, in the order of the lines"),
        ("join -a 1 -a 2 f g", "lines without a partner, in the order of the keys"),
    ],
    "tr": [
        ("tr a-c x-y", "a shorter second string is unspecified; its last byte goes on: **chosen**"),
        ("tr aab xyz", "a byte twice in the first string is unspecified; its last place counts: **chosen**"),
        ("tr -s a", "only equal neighbours are squeezed"),
        ("tr z-a b", "a range that descends is refused: **chosen**"),
    ],
}
