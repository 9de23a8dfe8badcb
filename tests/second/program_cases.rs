//! Cases for which a program is run alone, with images of both versions: its text and its words, streams
//! in pieces and longer than it reads, and the files of `fold`.

use crate::cases::{resized, Cases};
use crate::damages::{self, OF_IMAGE};
use crate::faults::story::Step;
use crate::foldings::Rings;
use crate::graphs::{
    self, lettered, BREAKING, LENGTHS_OF_WEAKEST, SHARED, SHRINKING, TWELVE, WEAKEST,
};
use crate::image;
use crate::messages::{
    of_fold, of_step, unread, words_of, IS_FOLDER, NO_FILE, NO_FOLDER, TOO_LONG,
};
use crate::operations::LONGEST_STREAM;
use crate::random::Random;
use crate::runs::{Due, Files, ProgramRun};
use crate::shapes;
use crate::sharing_cases;
use crate::table::{Table, MOST_VERTICES};
use crate::versions::{Version, VERSIONS};

/// The longest word that the system hands to a program.
const LONGEST_WORD: usize = 131_071;

impl Cases {
    pub fn programs(&mut self) {
        for run in [ProgramRun::look, ProgramRun::show, ProgramRun::list] {
            self.add_run("an empty stream", run(Vec::new()));
            VERSIONS.into_iter().for_each(|version| self.streams(version, run));
            self.refused_images(run);
        }
        self.add_run("the example of the rules", ProgramRun::list(of_letter("J")));
        self.begins("superbubbles 2\n0 6\n1 4\n");
        self.texts_of_weakest();
        for shape in [shapes::chain(2_048), shapes::ring(2_048), shapes::nests(20, 34)] {
            let table = shape.relabelled(&mut self.next_random()).counted(1);
            self.add_run("many superbubbles", ProgramRun::list(image::of_table(&table)));
        }
        for program in ["look", "show", "list"] {
            let run = ProgramRun::of_stream(program, &["J.sbt"], of_letter("J"), Due::Usage);
            self.add_run("a name for a stream", run);
        }
        self.judges();
        self.judges_of_version_2();
        self.folded_files();
        self.folded_files_of_version_2();
        VERSIONS.into_iter().for_each(|version| self.folded_rings(version));
        self.files_left_alone();
    }

    /// Streams of every kind, with images of a version, for a program that takes nothing else.
    fn streams(&mut self, version: Version, run: fn(Vec<u8>) -> ProgramRun) {
        let j = graphs::image(&mut self.next_random(), version, &graphs::j());
        let largest = |random: &mut Random| {
            let table = graphs::largest(random);
            graphs::image(random, version, &table)
        };
        for graph in &TWELVE {
            let stream = graphs::image(&mut self.next_random(), version, &graph.table());
            self.add_run(format!("{}, {version}", graph.name), run(stream));
        }
        for piece in [1, 7, 13, 132] {
            let name = format!("J, {version}, in pieces of {piece}");
            self.add_run(name, ProgramRun { piece, ..run(j.clone()) });
        }
        let whole = match version {
            Version::One => image::LARGEST_OF_ONE,
            Version::Two => image::LARGEST,
        };
        for piece in [1_000, 4_096, whole] {
            let stream = largest(&mut self.next_random());
            assert_eq!(stream.len(), whole);
            let name = format!("the largest image, {version}, in pieces of {piece}");
            self.add_run(name, ProgramRun { piece, ..run(stream) });
        }
        let lengths = [whole + 1, LONGEST_STREAM + 1, 65_536, 200_000, 1_000_000];
        for length in lengths.into_iter().chain((version == Version::One).then_some(LONGEST_STREAM))
        {
            let name = |what: &str| format!("{what}, {version}, with {length} bytes");
            let stream = largest(&mut self.next_random());
            self.add_run(name("the largest image"), run(resized(stream, length)));
            self.add_run(name("J"), run(resized(j.clone(), length)));
            if version == Version::One {
                self.add_run(format!("zeros, {length} bytes"), run(vec![0; length]));
            }
        }
        for damage in OF_IMAGE.iter().filter(|damage| damage.name.starts_with("header says")) {
            let mut stream = resized(j.clone(), 60_000);
            (damage.apply)(&mut stream, &mut self.next_random());
            self.add_run(format!("J, {version}, {}, with 60,000 bytes", damage.name), run(stream));
        }
        for _ in 0..10 {
            let random = &mut self.next_random();
            let table = graphs::any(random);
            let stream = graphs::image(random, version, &table);
            self.add_run(format!("a well-formed table, {version}"), run(stream));
            let stream = damaged_image(&mut self.next_random(), version);
            let name = format!("a damaged image, {version}, in pieces of 50");
            self.add_run(name, ProgramRun { piece: 50, ..run(stream) });
        }
    }

    /// Images that are refused for their version or a length, to any program that takes nothing else.
    fn refused_images(&mut self, run: fn(Vec<u8>) -> ProgramRun) {
        for (name, stream, text) in refused_images() {
            self.add_run(name, run(stream));
            self.begins(text);
        }
    }

    /// The worked fold By the weakest, looked at and shown in both versions.
    fn texts_of_weakest(&mut self) {
        let [of_one, of_two] = weakest();
        let name = "by the weakest, version 1";
        self.add_run(name, ProgramRun::look(of_one.clone()));
        self.begins("table 5 6\n");
        self.add_run(name, ProgramRun::show(of_one));
        self.begins("table 5 6\n0 0 1 4\n1 1 2 3\n2 5 4\n3 9 4\n4 0\n");
        let name = "by the weakest, version 2";
        self.add_run(name, ProgramRun::look(of_two.clone()));
        self.begins("table 5 6 lengths\n");
        self.add_run(name, ProgramRun::show(of_two));
        self.begins("table 5 6 lengths\n0 0 100 1 4\n1 1 200 2 3\n2 5 300 4\n3 9 400 4\n4 0 500\n");
        let most = image::with_lengths(&shapes::ladder().counted(1), &[u16::MAX; MOST_VERTICES]);
        self.add_run("the largest lengths", ProgramRun::show(most));
        self.begins("table 2048 8192 lengths\n0 1 65535 1 2 3 4\n");
    }

    fn judges(&mut self) {
        for (letter, s, t, text) in [
            ("J", "0", "6", "superbubble 7\n"),
            ("J", "1", "4", "superbubble 4\n"),
            ("J", "6", "0", "no\n"),
            ("J", "3", "3", "no\n"),
            ("H", "0", "3", "no\n"),
            ("H", "3", "0", "superbubble 2\n"),
            ("I", "2", "0", "no\n"),
            ("J", "7", "0", "refused 13\n"),
            ("J", "0", "7", "refused 13\n"),
            ("J", "4294967295", "0", "refused 13\n"),
            ("J", "4294967296", "6", "refused 13\n"),
            ("J", "0", "4294967302", "refused 13\n"),
            ("J", "0", "18446744073709551622", "refused 13\n"),
            ("J", "99999999999999999999999999", "6", "refused 13\n"),
            ("A", "0", "0", "refused 13\n"),
        ] {
            self.add_run(letter, ProgramRun::judge(s, t, of_letter(letter)));
            self.begins(text);
        }
        let fan = image::of_table(&shapes::fan(2_048).counted(1));
        self.add_run("a fan of 2,048", ProgramRun::judge("0", "1", fan));
        self.begins("superbubble 2048\n");
        self.add_run("an empty stream", ProgramRun::judge("0", "6", Vec::new()));
        self.begins("refused 10\n");
        let long = resized(of_letter("J"), 100_000);
        self.add_run("J, with 100,000 bytes", ProgramRun::judge("7", "4294967296", long));
        self.begins("refused 12\n");
        let largest = image::of_table(&graphs::largest(&mut self.next_random()));
        self.add_run("the largest image", ProgramRun::judge("0", "1", largest.clone()));
        let longer = resized(largest, LONGEST_STREAM);
        self.add_run("the largest image and a byte", ProgramRun::judge("0", "1", longer));
        self.begins("refused 12\n");
        for digits in [4_096, 4_097, 5_000, LONGEST_WORD] {
            let name = format!("a word of {digits} digits");
            let six = format!("{}6", "0".repeat(digits - 1));
            self.add_run(&name, ProgramRun::judge("0", &six, of_letter("J")));
            self.begins("superbubble 7\n");
            let nines = "9".repeat(digits);
            self.add_run(&name, ProgramRun::judge(&nines, &six, of_letter("J")));
            self.begins("refused 13\n");
            let letter = format!("{}x", "1".repeat(digits - 1));
            let words = [&letter[..], "6"];
            let run = ProgramRun::of_stream("judge", &words, of_letter("J"), Due::Usage);
            self.add_run(&name, run);
        }
        for version in VERSIONS {
            for _ in 0..8 {
                let stream = damaged_image(&mut self.next_random(), version);
                let run = ProgramRun::judge("0", "5000000000", stream);
                self.add_run(format!("a damaged image, {version}"), run);
            }
        }
        for words in [
            &[][..],
            &["0"],
            &["0", "6", "1"],
            &["a", "6"],
            &["0", "b"],
            &["-1", "6"],
            &["0", "6x"],
            &["", "6"],
            &["0", "1.5"],
        ] {
            let run = ProgramRun::of_stream("judge", words, of_letter("J"), Due::Usage);
            self.add_run("wrong words", run);
        }
    }

    fn judges_of_version_2(&mut self) {
        let of_two = |random: &mut Random, letter| {
            graphs::image(random, Version::Two, &lettered(letter).table())
        };
        for (letter, s, t, text) in [
            ("J", "0", "6", "superbubble 7\n"),
            ("J", "1", "4", "superbubble 4\n"),
            ("J", "6", "0", "no\n"),
            ("H", "3", "0", "superbubble 2\n"),
            ("J", "0", "7", "refused 13\n"),
            ("A", "0", "0", "refused 13\n"),
        ] {
            let stream = of_two(&mut self.next_random(), letter);
            self.add_run(format!("{letter}, version 2"), ProgramRun::judge(s, t, stream));
            self.begins(text);
        }
        for (name, stream, text) in refused_images() {
            // the image is refused before the vertex is
            self.add_run(name, ProgramRun::judge("0", "7", stream));
            self.begins(text);
        }
        let largest = largest_of_two(1);
        self.add_run("the largest image of all", ProgramRun::judge("0", "2041", largest.clone()));
        self.begins("superbubble 2042\n");
        let longer = resized(largest, LONGEST_STREAM);
        self.add_run("the largest image of all and a byte", ProgramRun::judge("0", "1", longer));
        self.begins("refused 12\n");
    }

    // ---- the files of fold

    fn folded_files(&mut self) {
        let fold = |letter: &str, budget| {
            ProgramRun::fold(budget, "in.sbt", "out.sbt", file("in.sbt", of_letter(letter)))
        };
        for (letter, budget, text) in [
            ("J", 1, "folded 1 left 0 edges 2\n"),
            ("J", 0, "folded 0 left 1 edges 8\n"),
            ("J", u32::MAX, "folded 1 left 0 edges 2\n"),
            ("K", 1, "folded 1 left 1 edges 6\n"),
            ("K", 2, "folded 2 left 0 edges 4\n"),
            ("L", 1, "folded 1 left 0 edges 2\n"),
            ("A", 1, "folded 0 left 0 edges 0\n"),
            ("E", 1, "refused 9\n"),
            ("G", 0, "refused 9\n"),
        ] {
            self.add_run(letter, fold(letter, budget));
            self.begins(text);
        }
        let once = fold("K", 1).after;
        self.add_run(
            "K again, from what was written",
            ProgramRun::fold(1, "out.sbt", "k.sbt", once),
        );
        self.begins("folded 1 left 0 edges 4\n");
        self.add_run("J over an old file", over_old(of_letter("J")));
        self.add_run("F beside an old file", over_old(of_letter("F")));
        self.add_run("an empty file beside an old file", over_old(Vec::new()));
        let long = resized(of_letter("J"), 100_000);
        self.add_run("J, with 100,000 bytes, beside an old file", over_old(long));
        self.add_run("the worked fold of a shared arm", over_old(image::of_table(&SHARED.table())));
        self.begins("folded 1 left 0 edges 3\n");
        let same = ProgramRun::fold(1, "in.sbt", "in.sbt", file("in.sbt", of_letter("J")));
        self.add_run("J, IN and OUT are one", same);
        let same = ProgramRun::fold(1, "in.sbt", "in.sbt", file("in.sbt", of_letter("E")));
        self.add_run("E, IN and OUT are one", same);
        let left = |letter| {
            [file("in.sbt", of_letter(letter)), file("gohardim-new-0123456789abcdef", vec![9; 200])]
                .concat()
        };
        let again = ProgramRun::fold(1, "in.sbt", "out.sbt", left("J"));
        self.add_run("J, after a stop", again);
        let again = ProgramRun::fold(1, "in.sbt", "in.sbt", left("K"));
        self.add_run("K, IN and OUT are one, after a stop", again);
        for digits in [4_096, 4_097, 5_000] {
            let word = format!("{}1", "0".repeat(digits - 1));
            let files = file("in.sbt", of_letter("K"));
            let run =
                ProgramRun::fold_by_word(Rings::Refused, &word, 1, "in.sbt", "out.sbt", files);
            self.add_run(format!("a budget of {digits} digits"), run);
            self.begins("folded 1 left 1 edges 6\n");
        }
        let longest = "o".repeat(255);
        let run = ProgramRun::fold(1, "in.sbt", &longest, file("in.sbt", of_letter("J")));
        self.add_run("the longest name", run);
        let folders =
            [file("a/", vec![]), file("a/in", of_letter("J")), file("b/", vec![])].concat();
        self.add_run("J in another folder", ProgramRun::fold(1, "a/in", "b/out", folders));
        for shape in [shapes::nests(20, 34), shapes::ladder(), shapes::chain(2_048)] {
            let random = &mut self.next_random();
            let stream = image::of_table(&shape.relabelled(random).table(random));
            self.add_run("a large table", over_old(stream));
        }
        let largest = image::of_table(&shapes::ladder().counted(7));
        assert_eq!(largest.len(), image::LARGEST_OF_ONE);
        let files = file("in.sbt", largest.clone());
        let run = ProgramRun::fold(0, "in.sbt", "out.sbt", files);
        self.add_run("the largest image, copied", run);
        self.begins("folded 0 left ");
        let longer = resized(largest, image::LARGEST_OF_ONE + 1);
        self.add_run("the largest image and a byte", over_old(longer));
        self.begins("refused 12\n");
        for version in VERSIONS {
            for _ in 0..8 {
                self.folds_over_old(version);
            }
        }
    }

    /// Tables and a damaged image, of a version, beside an old file.
    fn folds_over_old(&mut self, version: Version) {
        let random = &mut self.next_random();
        let table = shapes::bubbly_acyclic(random, 60).table(random);
        let stream = graphs::image(random, version, &table);
        self.add_run(format!("a table rich in superbubbles, {version}"), over_old(stream));
        let random = &mut self.next_random();
        let table = sharing_cases::row_with_long_arms(version, random);
        let stream = graphs::image(random, version, &table);
        self.add_run(format!("superbubbles in a row with long arms, {version}"), over_old(stream));
        let stream = damaged_image(&mut self.next_random(), version);
        self.add_run(format!("a damaged image beside an old file, {version}"), over_old(stream));
    }

    fn folded_files_of_version_2(&mut self) {
        for (letter, budget, text) in [
            ("J", 1, "folded 1 left 0 edges 2\n"),
            ("J", 0, "folded 0 left 1 edges 8\n"),
            ("K", 2, "folded 2 left 0 edges 4\n"),
            ("L", 1, "folded 1 left 0 edges 2\n"),
            ("A", 1, "folded 0 left 0 edges 0\n"),
            ("E", 1, "refused 9\n"),
        ] {
            let table = lettered(letter).table();
            let stream = graphs::image(&mut self.next_random(), Version::Two, &table);
            let run = ProgramRun::fold(budget, "in.sbt", "out.sbt", file("in.sbt", stream));
            self.add_run(format!("{letter}, version 2"), run);
            self.begins(text);
        }
        for (version, stream) in VERSIONS.into_iter().zip(weakest()) {
            self.add_run(format!("by the weakest, {version}"), over_old(stream.clone()));
            self.begins("folded 1 left 0 edges 3\n");
            let same = ProgramRun::fold(1, "in.sbt", "in.sbt", file("in.sbt", stream));
            self.add_run(format!("by the weakest, {version}, IN and OUT are one"), same);
        }
        for (name, stream, text) in refused_images() {
            self.add_run(name, over_old(stream));
            self.begins(text);
        }
        for shape in [shapes::nests(20, 34), shapes::ladder(), shapes::chain(2_048)] {
            let random = &mut self.next_random();
            let table = shape.relabelled(random).tied(random);
            let stream = graphs::image(random, Version::Two, &table);
            self.add_run("a large table, version 2", over_old(stream));
        }
        let largest = largest_of_two(7);
        let files = file("in.sbt", largest.clone());
        let run = ProgramRun::fold(0, "in.sbt", "out.sbt", files);
        self.add_run("the largest image of all, copied", run);
        self.begins("folded 0 left ");
        let longer = resized(largest, LONGEST_STREAM);
        self.add_run("the largest image of all and a byte", over_old(longer));
        self.begins("refused 12\n");
    }

    /// Images of a version, most of them of a table with a cycle, folded with `--rings`.
    fn folded_rings(&mut self, version: Version) {
        let files = |random: &mut Random, table: &Table| {
            file("in.sbt", graphs::image(random, version, table))
        };
        for (graph, budget, text) in [
            (&SHRINKING, 0, "folded 0 left 1 edges 9\n"),
            (&SHRINKING, 1, "folded 1 left 0 edges 7\n"),
            (&SHRINKING, u32::MAX, "folded 1 left 0 edges 7\n"),
            (&BREAKING, u32::MAX, "folded 0 left 0 edges 7\n"),
            (lettered("A"), 1, "folded 0 left 0 edges 0\n"),
            (lettered("E"), 1, "folded 0 left 0 edges 2\n"),
            (lettered("G"), 0, "folded 0 left 0 edges 2\n"),
            (lettered("H"), 1, "folded 0 left 0 edges 5\n"),
            (lettered("J"), 1, "folded 1 left 0 edges 2\n"),
            (lettered("K"), 1, "folded 1 left 1 edges 6\n"),
        ] {
            let before = files(&mut self.next_random(), &graph.table());
            let run = ProgramRun::fold_rings(budget, "in.sbt", "out.sbt", before);
            self.add_run(format!("{}, {version}", graph.name), run);
            self.begins(text);
        }
        let before = files(&mut self.next_random(), &SHRINKING.table());
        let same = ProgramRun::fold_rings(1, "in.sbt", "in.sbt", before);
        self.add_run(format!("a ring, {version}, IN and OUT are one"), same);
        let left = file("gohardim-new-0123456789abcdef", vec![9; 200]);
        let before = [files(&mut self.next_random(), &SHRINKING.table()), left].concat();
        let again = ProgramRun::fold_rings(1, "in.sbt", "out.sbt", before);
        self.add_run(format!("a ring, {version}, after a stop"), again);
        for digits in [4_096, 5_000] {
            let word = format!("{}1", "0".repeat(digits - 1));
            let before = files(&mut self.next_random(), &lettered("K").table());
            let run = ProgramRun::fold_by_word(Rings::Taken, &word, 1, "in.sbt", "out.sbt", before);
            self.add_run(format!("a budget of {digits} digits, {version}"), run);
            self.begins("folded 1 left 1 edges 6\n");
        }
        for shape in [shapes::nests_in_a_ring(20, 34), shapes::ladder(), shapes::ring(2_048)] {
            let random = &mut self.next_random();
            let table = shape.relabelled(random).table(random);
            let stream = graphs::image(random, version, &table);
            self.add_run(format!("a large table, {version}"), rings_over_old(stream));
        }
        for _ in 0..6 {
            let random = &mut self.next_random();
            let table = shapes::ring_of_nests(random, 3).table(random);
            let stream = graphs::image(random, version, &table);
            self.add_run(format!("a ring of nests, {version}"), rings_over_old(stream));
            let stream = damaged_image(&mut self.next_random(), version);
            self.add_run(format!("a damaged image, {version}"), rings_over_old(stream));
        }
        if version == Version::Two {
            for (name, stream, text) in refused_images() {
                self.add_run(name, rings_over_old(stream));
                self.begins(text);
            }
        }
        self.add_run("an empty file beside an old file", rings_over_old(Vec::new()));
        self.begins("refused 10\n");
    }

    /// Where `fold` gives no answer, every file is as it was, and there is none more.
    fn files_left_alone(&mut self) {
        let files = [
            file("folder/", vec![]),
            file("in.sbt", of_letter("J")),
            file("out.sbt", vec![1, 2, 3]),
        ]
        .concat();
        let mut add = |name: &str, words: &[&str], due| {
            self.add_run(name, ProgramRun::fold_refusing(words, files.clone(), due));
        };
        let nines = "9".repeat(5_000);
        for budget in ["", "a", "-1", "1x", "4294967296", "18446744073709551617", &nines] {
            add("no budget", &[budget, "in.sbt", "out.sbt"], Due::Usage);
            add("no budget", &["--rings", budget, "in.sbt", "out.sbt"], Due::Usage);
        }
        for words in [&[][..], &["1"], &["1", "in.sbt"], &["1", "in.sbt", "out.sbt", "more.sbt"]] {
            add("wrong words", words, Due::Usage);
        }
        for words in [
            &["--rings"][..],
            &["--rings", "1"],
            &["--rings", "1", "in.sbt"],
            &["--rings", "in.sbt", "out.sbt"],
            &["--rings", "1", "in.sbt", "out.sbt", "more.sbt"],
            &["--rings", "--rings", "1", "in.sbt", "out.sbt"],
            &["1", "--rings", "in.sbt", "out.sbt"],
            &["1", "in.sbt", "--rings", "out.sbt"],
            &["1", "in.sbt", "out.sbt", "--rings"],
        ] {
            add("--rings and wrong words", words, Due::Usage);
        }
        let dashes = "-".repeat(5_000);
        for word in
            ["", "--", "-rings", "rings", "--ring", "--ringss", "--Rings", "--rings ", "1", &dashes]
        {
            add("a wrong word for --rings", &[word, "1", "in.sbt", "out.sbt"], Due::Usage);
        }
        let (long, longer) = ("n".repeat(256), "n/".repeat(2_049));
        for (name, error) in [
            ("none.sbt", NO_FILE),
            ("", NO_FILE),
            ("none/in.sbt", NO_FILE),
            ("in.sbt/in.sbt", NO_FOLDER),
            ("folder", IS_FOLDER),
            (&long, TOO_LONG),
        ] {
            add("no IN", &["1", name, "out.sbt"], Due::Message(unread(name, error)));
        }
        add("no IN", &["1", "none.sbt", "none.sbt"], Due::Message(unread("none.sbt", NO_FILE)));
        let words = ["--rings", "1", "none.sbt", "out.sbt"];
        add("no IN", &words, Due::Message(unread("none.sbt", NO_FILE)));
        let too_long = |name| Due::Message(of_fold(name, &words_of(TOO_LONG), "OUT is as it was"));
        add("no IN", &["1", &longer, "out.sbt"], too_long("IN"));
        add("no OUT", &["1", "in.sbt", &longer], too_long("OUT"));
        for (name, error, step) in [
            ("", NO_FILE, Step::LookAtOut),
            ("in.sbt/out.sbt", NO_FOLDER, Step::LookAtOut),
            (&long, TOO_LONG, Step::LookAtOut),
            ("none/out.sbt", NO_FILE, Step::OpenFolder),
            ("none/", NO_FILE, Step::OpenFolder),
        ] {
            let due = || Due::Message(of_step(step, error, "in.sbt", name));
            add("no OUT", &["1", "in.sbt", name], due());
            add("no OUT", &["--rings", "1", "in.sbt", name], due());
        }
        for name in ["folder", "folder/", "."] {
            let state = "OUT must be a plain file or a free name; OUT is as it was";
            let due = Due::Message(of_fold(name, "it is a folder", state));
            add("no OUT", &["1", "in.sbt", name], due);
        }
    }
}

fn of_letter(letter: &str) -> Vec<u8> {
    image::of_table(&lettered(letter).table())
}

fn damaged_image(random: &mut Random, version: Version) -> Vec<u8> {
    let damage = random.one_of(&damages::of_images(version));
    damages::damaged_image(random, version, &[damage])
}

/// Images of J that are refused for their version or for a length, and what is printed for them.
fn refused_images() -> Vec<(&'static str, Vec<u8>, &'static str)> {
    let with = |lengths: [u16; 7]| image::with_lengths(&graphs::j(), &lengths);
    let (of_one, of_two) = (of_letter("J"), with([7; 7]));
    vec![
        ("J, version 0", image::with_version(&of_one, 0), "refused 11\n"),
        ("J, version 3", image::with_version(&of_one, 3), "refused 11\n"),
        ("J with lengths, version 3", image::with_version(&of_two, 3), "refused 11\n"),
        ("J with lengths, version 258", image::with_version(&of_two, 258), "refused 11\n"),
        ("J, version 2 without lengths", image::with_version(&of_one, 2), "refused 12\n"),
        ("J, version 1 with lengths", image::with_version(&of_two, 1), "refused 12\n"),
        ("J, first length 0", with([0, 1, 1, 1, 1, 1, 1]), "refused 20\n"),
        ("J, last length 0", with([1, 1, 1, 1, 1, 1, 0]), "refused 20\n"),
    ]
}

/// The table of the worked fold By the weakest as an image of each version.
fn weakest() -> [Vec<u8>; 2] {
    let table = WEAKEST.table();
    [image::of_table(&table), image::with_lengths(&table, &LENGTHS_OF_WEAKEST)]
}

/// An image that is as long as one can be, of a table without a cycle in which every count is this.
fn largest_of_two(count: u64) -> Vec<u8> {
    let largest = image::with_lengths(&shapes::ladder().counted(count), &[300; MOST_VERTICES]);
    assert_eq!(largest.len(), image::LARGEST);
    largest
}

/// A fold with budget 1 over an old file.
fn over_old(stream: Vec<u8>) -> ProgramRun {
    ProgramRun::fold(1, "in.sbt", "out.sbt", beside_old(stream))
}

/// The same with `--rings`.
fn rings_over_old(stream: Vec<u8>) -> ProgramRun {
    ProgramRun::fold_rings(1, "in.sbt", "out.sbt", beside_old(stream))
}

fn beside_old(stream: Vec<u8>) -> Files {
    [file("in.sbt", stream), file("out.sbt", vec![1, 2, 3])].concat()
}

fn file(name: &str, content: Vec<u8>) -> Files {
    vec![(name.to_string(), content)]
}
