//! Inputs whose answers were settled beforehand: what the programs print for macros and traces, unequal pairs of traces, and
//! layouts of texts.

use crate::oracle::refusal::Refusal;

/// Capitals in names (document 02): "Names and words are equal whatever the case of their letters", and
/// "Lines print a name as it was declared."
pub const CAPITALS: [(&str, &str); 13] = [
    ("vars cap CAP;", "refused 10 at 9\n"),
    ("vars x; funs X/1;", "refused 10 at 13\n"),
    ("VARS x; SKIP;", "verdict pass\npairs 0\n"),
    ("vars IF;", "refused 9 at 5\n"),
    ("vars abC;", "verdict pass\npairs 0\n"),
    ("vars abcdefGHI;", "refused 8 at 5\n"),
    ("vars aSSERTION;", "refused 8 at 5\n"),
    ("vars x; yX", "refused 11 at 8\n"),
    ("vars x yY; Yy := X;", "verdict pass\npairs 1\n"),
    ("vars x[;", "refused 8 at 6\n"),
    ("vars x; if x=x[]", "refused 8 at 14\n"),
    ("vars x; funs f/\x11;", "refused 8 at 15\n"),
    (
        "vars Xx Y; funs Cap/1; xX := CAP(y); ASSERT XX = y;",
        "verdict fail\npairs 2\nletters 2\nXx := Cap(Y)\nassume Xx != Y\nvalues 4\nstart Xx 1\nstart Y 2\n\
         row Cap 2 0 3\n",
    ),
];

/// A packed trace whose judgement is settled.
pub struct Judged {
    /// Its letters.
    pub letters: &'static str,
    /// The words of its header and its letters.
    pub words: &'static [u16],
    /// What the monitor program prints.
    pub lines: &'static str,
}

impl Judged {
    const fn new(letters: &'static str, words: &'static [u16], lines: &'static str) -> Judged {
        Judged { letters, words, lines }
    }

    /// The bytes of the trace.
    pub fn bytes(&self) -> Vec<u8> {
        self.words.iter().flat_map(|word| word.to_be_bytes()).collect()
    }

    /// The numbers of its first incoherent and its first infeasible letter, 0 for none, as the lines have them.
    pub fn numbers(&self) -> [usize; 2] {
        let mut numbers = self.lines.lines().map(|line| line.split(' ').nth(1).map_or(Ok(0), str::parse));
        [(); 2].map(|()| numbers.next().expect("two lines").expect("a number"))
    }
}

/// A test of what is already equal (document 02): "an equal test whose two sides are equal in the closure before it is
/// always coherent". Equal as one register, by a copy, by congruence and by an earlier test; what the test leaves as it was.
pub const EQUAL_SIDES_TRACES: [Judged; 12] = [
    Judged::new("z:=f(x), z:=x, x=x", &[0x3200, 0x4400, 0x0400, 0x8000], "coherent\nfeasible\n"),
    Judged::new(
        "z:=f(x), z:=x, y:=x, x=y",
        &[0x3200, 0x4400, 0x0400, 0x0200, 0x8008],
        "coherent\nfeasible\n",
    ),
    Judged::new("z:=f(x), z:=x, x=y", &[0x3200, 0x4400, 0x0400, 0x8008], "incoherent 3\nfeasible\n"),
    Judged::new(
        "u:=f(x), v:=f(y), x=y, w:=g(u), w:=x, u=v",
        &[0x5400, 0x4400, 0x4640, 0x8008, 0x5880, 0x0800, 0x8098],
        "coherent\nfeasible\n",
    ),
    Judged::new(
        "z:=f(x), z:=x, x=x, z:=f(x)",
        &[0x3200, 0x4400, 0x0400, 0x8000, 0x4400],
        "incoherent 4\nfeasible\n",
    ),
    Judged::new(
        "z:=f(x), z:=x, x=x, y:=x, y!=x",
        &[0x3200, 0x4400, 0x0400, 0x8000, 0x0200, 0xc040],
        "coherent\ninfeasible 5\n",
    ),
    // The marks stay.
    Judged::new(
        "z:=f(x), z:=x, x=x, x=y",
        &[0x3200, 0x4400, 0x0400, 0x8000, 0x8008],
        "incoherent 4\nfeasible\n",
    ),
    // It is not enough that one side has no mark, whichever it is.
    Judged::new("z:=f(x), z:=x, y=x", &[0x3200, 0x4400, 0x0400, 0x8040], "incoherent 3\nfeasible\n"),
    // An argument is lost, and the test of letter 3 is repeated.
    Judged::new(
        "u:=f(x,w), v:=f(y,w), x=y, w:=x, x=y",
        &[0x5300, 0x4420, 0x4660, 0x8008, 0x0800, 0x8008],
        "coherent\nfeasible\n",
    ),
    // Equal only by the test itself: f(x) is lost, f(y) is held.
    Judged::new(
        "u:=f(x), v:=f(y), u:=v, x=y",
        &[0x4200, 0x4400, 0x4640, 0x04c0, 0x8008],
        "incoherent 4\nfeasible\n",
    ),
    // An infeasible trace is judged alike.
    Judged::new(
        "x!=x, z:=f(x), z:=x, x=x",
        &[0x3200, 0xc000, 0x4400, 0x0400, 0x8000],
        "coherent\ninfeasible 1\n",
    ),
    Judged::new(
        "x!=x, z:=f(x), z:=x, x=y",
        &[0x3200, 0xc000, 0x4400, 0x0400, 0x8008],
        "incoherent 4\ninfeasible 1\n",
    ),
];

/// Macros that test what is already equal, with what the verdict program prints.
pub const EQUAL_SIDES_MACROS: [(&str, &str); 6] = [
    ("vars x z; funs f/1; z := f(x); z := x; assume x = z; assert x = z;", "verdict pass\npairs 4\n"),
    ("vars x y; funs n/1; y := n(x); y := x; while x = y { }", "verdict pass\npairs 3\n"),
    // The marks stay.
    (
        "vars x y z; funs f/1; z := f(x); z := x; assert x = z; assume x = y;",
        "verdict incoherent\npairs 4\nletters 4\nz := f(x)\nz := x\nassume x = z\nassume x = y\n",
    ),
    // The failing letter is the equal test.
    (
        "vars x z; funs f/1; z := f(x); z := x; assert x != z;",
        "verdict fail\npairs 3\nletters 3\nz := f(x)\nz := x\nassume x = z\nvalues 4\nstart x 1\nstart z 2\n\
         row f 1 0 3\n",
    ),
    // Each turn asks again what is known.
    (
        "vars x y z; funs f/1; assume x = y; z := f(x); z := x; while x = y { z := y; } assert x = z;",
        "verdict pass\npairs 6\n",
    ),
    // The second turn may ask again, but not compute again.
    (
        "vars x y z; funs f/1; while x = y { z := f(x); z := x; }",
        "verdict incoherent\npairs 5\nletters 5\nassume x = y\nz := f(x)\nz := x\nassume x = y\nz := f(x)\n",
    ),
];

/// A trace whose unequal pairs are settled, as words of 64 bits.
pub struct Paired {
    /// A macro of its letters.
    pub text: &'static str,
    /// The words of its header and its letters.
    pub words: &'static [u16],
    /// The unequal pairs after the header alone, and after each letter.
    pub unequal: &'static [u64],
}

impl Paired {
    const fn new(text: &'static str, words: &'static [u16], unequal: &'static [u64]) -> Paired {
        Paired { text, words, unequal }
    }
}

/// Unequal flags by the word (document 02): "its bit 8a+b is set exactly where classes a and b, by name, are known
/// unequal".
pub const UNEQUAL_WORDS: [Paired; 11] = [
    // The name of the class of x moves from register 0 to register 2.
    Paired::new(
        "vars x y z; assume x!=y; z:=x; x:=y;",
        &[0x3000, 0xc008, 0x0400, 0x0040],
        &[0, 0x102, 0x102, 0x1_0004],
    ),
    // A register that names no class has no bits.
    Paired::new("vars x y z; assume x!=z; y:=x;", &[0x3000, 0xc010, 0x0200], &[0, 0x1_0004, 0x1_0004]),
    // An equal test takes the pair to the lower name.
    Paired::new("vars x y z; assume y!=z; assume x=y;", &[0x3000, 0xc050, 0x8008], &[0, 0x2_0400, 0x1_0004]),
    // So does one that makes results equal.
    Paired::new(
        "vars x y u v w; funs f/1; u:=f(x); v:=f(y); assume v!=w; assume x=y;",
        &[0x5200, 0x4400, 0x4640, 0xc0e0, 0x8008],
        &[0, 0, 0, 0x8_1000_0000, 0x4_0010_0000],
    ),
    // The register of the test is overwritten, and another of its class is left.
    Paired::new(
        "vars x y z w; assume x=z; assume x!=y; x:=w;",
        &[0x4000, 0x8010, 0xc008, 0x00c0],
        &[0, 0, 0x102, 0x2_0400],
    ),
    // An incoherent letter that makes the whole trace infeasible leaves what the letters before it say.
    Paired::new(
        "vars x y u v w; funs f/1; u:=f(x); v:=f(y); assume u!=v; assume x!=w; u:=x; assume x=y;",
        &[0x5200, 0x4400, 0x4640, 0xc098, 0xc020, 0x0400, 0x8008],
        &[0, 0, 0, 0x408_0000, 0x1_0408_0010, 0x1_0000_0010, 0x1_0000_0010],
    ),
    // The last registers in both orders.
    Paired::new("vars a b c d e f g h; assume h!=g;", &[0x8000, 0xc1f0], &[0, 0x4080_0000_0000_0000]),
    // A pair goes with the last register of a class.
    Paired::new("vars x y z; assume x!=y; y:=z;", &[0x3000, 0xc008, 0x0280], &[0, 0x102, 0]),
    // None once infeasible.
    Paired::new(
        "vars x y z; assume x!=y; assume x=y; assume x!=z;",
        &[0x3000, 0xc008, 0x8008, 0xc010],
        &[0, 0x102, 0, 0],
    ),
    // An incoherent letter leaves them, and so does what follows.
    Paired::new(
        "vars x y z; funs f/1; assume x!=y; z:=f(x); z:=f(z); assume x=y; assume x!=z;",
        &[0x3200, 0xc008, 0x4400, 0x4480, 0x8008, 0xc010],
        &[0, 0x102, 0x102, 0x102, 0x102, 0x102],
    ),
    // Also one that would make the trace infeasible.
    Paired::new(
        "vars u v x y; funs f/1; u:=f(x); v:=f(y); assume u!=v; assume x!=v; u:=x; assume x=y;",
        &[0x4200, 0x4080, 0x42c0, 0xc008, 0xc088, 0x0080, 0x8098],
        &[0, 0, 0, 0x102, 0x2_0502, 0x102, 0x102],
    ),
];

/// A trace whose numbers of classes are settled.
pub struct Counted {
    /// A macro of its letters.
    pub text: &'static str,
    /// The words of its header and its letters.
    pub words: &'static [u16],
    /// The number of classes after the header alone, and after each letter.
    pub classes: &'static [usize],
}

impl Counted {
    const fn new(text: &'static str, words: &'static [u16], classes: &'static [usize]) -> Counted {
        Counted { text, words, classes }
    }
}

/// How many classes are alive (document 02): "it equals the count of classes there and after every letter, refused and
/// incoherent ones included".
pub const CLASS_NUMBERS: [Counted; 23] = [
    // A header alone has as many classes as registers.
    Counted::new("vars x;", &[0x1000], &[1]),
    Counted::new("vars a b c d e f g h; funs p/1 q/2;", &[0x8480], &[8]),
    // A copy into a register that is alone in its class takes that class away.
    Counted::new("vars x y z; x:=y; z:=y;", &[0x3000, 0x0040, 0x0440], &[3, 2, 1]),
    // A copy into a register that shares its class leaves the number, also where that register named the class.
    Counted::new(
        "vars x y z w; y:=x; y:=z; w:=x; x:=z;",
        &[0x4000, 0x0200, 0x0280, 0x0600, 0x0080],
        &[4, 3, 3, 2, 2],
    ),
    // A copy within a class changes nothing.
    Counted::new(
        "vars x y z; x:=x; y:=x; y:=x; x:=y; y:=y;",
        &[0x3000, 0x0000, 0x0200, 0x0200, 0x0040, 0x0240],
        &[3, 3, 2, 2, 2, 2],
    ),
    // An application that is new, to a register that is alone, also to its own argument.
    Counted::new(
        "vars x y; funs f/1; y:=f(x); x:=f(y); x:=f(x);",
        &[0x2200, 0x4200, 0x4040, 0x4000],
        &[2, 2, 2, 2],
    ),
    // One that is new, to a register that shares its class.
    Counted::new(
        "vars x y z; funs f/1; y:=x; z:=x; y:=f(x); x:=f(y);",
        &[0x3200, 0x0200, 0x0400, 0x4200, 0x4040],
        &[3, 2, 1, 2, 3],
    ),
    // One whose result is held is a copy: into a lone register, a sharing one, one of the result's class, and an argument.
    Counted::new(
        "vars x y z w; funs f/1; y:=f(x); z:=f(x); z:=w; z:=f(x); z:=f(x); x:=f(x);",
        &[0x4200, 0x4200, 0x4400, 0x04c0, 0x4400, 0x4400, 0x4000],
        &[4, 4, 3, 3, 3, 3, 2],
    ),
    // Two arguments count in their order.
    Counted::new(
        "vars x y u v w; funs f/2; u:=f(x,y); v:=f(y,x); w:=f(x,y);",
        &[0x5300, 0x4408, 0x4640, 0x4808],
        &[5, 5, 5, 4],
    ),
    // An equal test takes one class away.
    Counted::new("vars x y z; assume x=y; assume z=y;", &[0x3000, 0x8008, 0x8088], &[3, 2, 1]),
    // Within a class it changes nothing: one register, a copy, an earlier test.
    Counted::new(
        "vars x y z; assume x=x; y:=x; assume x=y; assume y=z; assume z=x; assume x=z;",
        &[0x3000, 0x8000, 0x0200, 0x8008, 0x8050, 0x8080, 0x8010],
        &[3, 3, 2, 2, 1, 1, 1],
    ),
    // One test makes one more pair of results equal.
    Counted::new(
        "vars x y u v; funs f/1; u:=f(x); v:=f(y); assume x=y; assume u=v;",
        &[0x4200, 0x4400, 0x4640, 0x8008, 0x8098],
        &[4, 4, 4, 2, 2],
    ),
    // Two more, one above the other.
    Counted::new(
        "vars x y p q r s; funs f/1; p:=f(x); q:=f(y); r:=f(p); s:=f(q); assume y=x;",
        &[0x6200, 0x4400, 0x4640, 0x4880, 0x4ac0, 0x8040],
        &[6, 6, 6, 6, 6, 3],
    ),
    // Two more, side by side.
    Counted::new(
        "vars x y p q r s; funs f/1 g/2; p:=f(x); q:=f(y); r:=g(x,y); s:=g(y,y); assume x=y;",
        &[0x6480, 0x4400, 0x4640, 0x5808, 0x5a48, 0x8008],
        &[6, 6, 6, 6, 6, 3],
    ),
    // Three more, one above the other.
    Counted::new(
        "vars x y p q r s t u; funs f/1; p:=f(x); q:=f(y); r:=f(p); s:=f(q); t:=f(r); u:=f(s); assume x=y;",
        &[0x8200, 0x4400, 0x4640, 0x4880, 0x4ac0, 0x4d00, 0x4f40, 0x8008],
        &[8, 8, 8, 8, 8, 8, 8, 4],
    ),
    // Three more, of three functions.
    Counted::new(
        "vars x y p q r s t u; funs f/1 g/1 h/2; p:=f(x); q:=f(y); r:=g(x); s:=g(y); t:=h(x,p); u:=h(y,q); assume x=y;",
        &[0x8640, 0x4400, 0x4640, 0x5800, 0x5a40, 0x6c10, 0x6e58, 0x8008],
        &[8, 8, 8, 8, 8, 8, 8, 4],
    ),
    // All that there are.
    Counted::new(
        "vars a b c d e f g h; funs n/1; b:=n(a); c:=n(b); d:=n(c); e:=n(d); f:=n(e); g:=n(f); h:=n(g); assume a=b;",
        &[0x8200, 0x4200, 0x4440, 0x4680, 0x48c0, 0x4b00, 0x4d40, 0x4f80, 0x8008],
        &[8, 8, 8, 8, 8, 8, 8, 8, 1],
    ),
    // A test above whose sides a result is lost is incoherent.
    Counted::new(
        "vars x y u v; funs f/1; u:=f(x); v:=f(y); u:=v; assume u=v; assume x=y;",
        &[0x4200, 0x4400, 0x4640, 0x04c0, 0x8098, 0x8008],
        &[4, 4, 4, 3, 3, 3],
    ),
    // An unequal test changes nothing.
    Counted::new(
        "vars x y z; assume x!=y; assume z!=y; x:=y; assume z!=x;",
        &[0x3000, 0xc008, 0xc088, 0x0040, 0xc080],
        &[3, 3, 3, 2, 2],
    ),
    // An infeasible trace goes on.
    Counted::new(
        "vars x y z; funs f/1; assume x!=x; assume x=y; z:=x; assume x!=z; x:=f(x); y:=z; y:=f(z);",
        &[0x3200, 0xc000, 0x8008, 0x0400, 0xc010, 0x4000, 0x0280, 0x4280],
        &[3, 3, 2, 1, 1, 2, 2, 2],
    ),
    // Infeasible by the merge itself, which counts.
    Counted::new(
        "vars x y u v; funs f/1; u:=f(x); v:=f(y); assume u!=v; assume x=y; y:=u;",
        &[0x4200, 0x4400, 0x4640, 0xc098, 0x8008, 0x0280],
        &[4, 4, 4, 4, 2, 2],
    ),
    // An incoherent letter leaves the number, and so does what follows: a test, an application, letters behind.
    Counted::new(
        "vars x y z; funs f/1; z:=f(x); z:=f(z); assume x=y; x:=y; y:=z;",
        &[0x3200, 0x4400, 0x4480, 0x8008, 0x0040, 0x0280],
        &[3, 3, 3, 3, 3, 3],
    ),
    Counted::new(
        "vars x y; funs n/1; y:=n(x); y:=n(y); x:=n(x); y:=x; assume x=y;",
        &[0x2200, 0x4200, 0x4240, 0x4000, 0x0200, 0x8008],
        &[2, 2, 2, 2, 2, 2],
    ),
];

/// A trace that is displayed.
pub struct Displayed {
    /// A macro of its letters.
    pub text: &'static str,
    /// The words of its header and its letters.
    pub words: &'static [u16],
    /// What the display program prints.
    pub lines: &'static str,
}

impl Displayed {
    /// The packed trace.
    pub fn bytes(&self) -> Vec<u8> {
        self.words.iter().flat_map(|word| word.to_be_bytes()).collect()
    }
}

/// Displays that were settled: before the first letter and after each of them how many letters, what judging said of the
/// last, the number of classes and the unequal pairs.
pub const DISPLAYS: [Displayed; 2] = [
    Displayed {
        text: "vars x y z; assume x!=y; z:=x; x:=y;",
        words: &[0x3000, 0xc008, 0x0400, 0x0040],
        lines: "0 fresh 3 0000000000000000\n1 coherent 3 0000000000000102\n2 coherent 2 0000000000000102\n\
                3 coherent 2 0000000000010004\n",
    },
    Displayed {
        text: "vars x y z; funs f/1; z:=f(x); z:=x; assume x=y; assume y=z;",
        words: &[0x3200, 0x4400, 0x0400, 0x8008, 0x8050],
        lines: "0 fresh 3 0000000000000000\n1 coherent 3 0000000000000000\n2 coherent 2 0000000000000000\n\
                3 incoherent 2 0000000000000000\n4 incoherent 2 0000000000000000\n",
    },
];

/// Tests with names (document 02), with what the verdict program prints: "the three words leave the names, and `!` becomes
/// a token"; what refuses a line of tests and a use of a test; what a test with a name performs.
const NAMED_TESTS: [(&str, &str); 23] = [
    ("vars result;", "refused 9 at 5\n"),
    ("vars x Truth;", "refused 9 at 7\n"),
    ("vars x; tests hot/1; funs f/1;", "refused 9 at 21\n"),
    ("vars a b c d e f; tests hot/1;", "verdict pass\npairs 0\n"),
    ("vars a b c d e f g; tests ;", "refused 16 at 20\n"),
    ("vars a b c d e f g; skip; tests hot/1;", "refused 9 at 26\n"),
    ("vars x; funs a/1 b/1 c/1; tests hot/1 warm/2;", "refused 10 at 38\n"),
    ("vars x; tests X/1;", "refused 10 at 14\n"),
    ("vars x; if x(x) {}", "refused 11 at 11\n"),
    ("vars x; assume x ! = x;", "refused 9 at 17\n"),
    ("vars x; tests hot/1; if !x = x {}", "refused 11 at 25\n"),
    ("vars x; tests hot/1; if !hot = x {}", "refused 9 at 29\n"),
    ("vars x; tests hot/1; if hot = x {}", "refused 11 at 24\n"),
    ("vars x; tests hot/1; if x = hot(x) {}", "refused 11 at 28\n"),
    ("vars x; tests hot/1; if hot(x) = x {}", "refused 9 at 31\n"),
    ("vars x; tests hot/1; if hot(x,x) {}", "refused 11 at 29\n"),
    ("vars x; tests hot/1; x := hot(x);", "refused 11 at 26\n"),
    ("vars x; tests hot/1; hot(x);", "refused 11 at 21\n"),
    (
        "vars x; tests hot/1; assert hot(x);",
        "verdict fail\npairs 2\nletters 2\nresult := hot(x)\nassume result != truth\nvalues 5\nstart x 1\n\
         start result 2\nstart truth 3\nrow hot 1 0 4\n",
    ),
    (
        "vars x; tests hot/1; assert !Hot(x);",
        "verdict fail\npairs 2\nletters 2\nresult := hot(x)\nassume result = truth\nvalues 4\nstart x 1\n\
         start result 2\nstart truth 3\nrow hot 1 0 3\n",
    ),
    (
        "vars x y; tests hot/1; assert x = y;",
        "verdict fail\npairs 1\nletters 1\nassume x != y\nvalues 5\nstart x 1\nstart y 2\nstart result 3\n\
         start truth 4\n",
    ),
    ("vars x; tests hot/1; while hot(x) { }", "verdict pass\npairs 4\n"),
    // "A while returning to the first": what is known behind the body was known before the loop.
    ("vars x; tests hot/1; assume hot(x); while hot(x) { }", "verdict pass\npairs 4\n"),
];

/// Tests with names: all texts whose answers were settled, with what the verdict program prints. "Each named test is two
/// points", so that 129 of them are more points than there may be.
pub fn named_tests() -> Vec<(String, &'static str)> {
    let assumes = |count: usize| format!("vars x;tests h/1;{}", "assume h(x);".repeat(count));
    let mut answers: Vec<(String, &str)> =
        NAMED_TESTS.into_iter().map(|(text, lines)| (text.to_string(), lines)).collect();
    answers.push((assumes(129), "refused 13 at 0\n"));
    answers.push((assumes(128), "verdict pass\npairs 256\n"));
    answers
}

/// A text that is laid out.
pub struct Settled {
    /// The text.
    pub text: String,
    /// The bytes that are lent for the print.
    pub lent: usize,
    /// The print, or the refusal.
    pub layout: Result<String, Refusal>,
}

/// Texts and their prints where 4,096 bytes are lent.
const PRINTS: [(&str, &str); 7] = [
    ("vars x;", "vars x;\n"),
    ("vars x;funs f/1g/2;", "vars x;\nfuns f/1 g/2;\n"),
    ("VARS a B;If A=b{}Else{}", "vars a B;\nif a=B{\n}\n"),
    ("vars a;if a=a{}else{skip;}", "vars a;\nif a=a{\n}\nelse{\nskip;\n}\n"),
    ("vars a;if a=a{}else{if a!=a{}else{# no\n}}", "vars a;\nif a=a{\n}\nelse{\nif a!=a{\n}\n}\n"),
    (
        "vars a b;funs F/2;A:=f ( a , B ) ;assume a\t!=\r\nb;assert b=a;",
        "vars a b;\nfuns F/2;\na:=F(a,b);\nassume a!=b;\nassert b=a;\n",
    ),
    (
        "Vars X; Tests Hot/1 Warm/2; If ! HOT(x) { } While warm(X,x) { assume !hot(x) ; }",
        "vars X;\ntests Hot/1 Warm/2;\nif!Hot(X){\n}\nwhile Warm(X,X){\nassume!Hot(X);\n}\n",
    ),
];

/// The house layout (document 02): "Reading the print yields the macro that was printed", and "15, given last, when
/// the print passes the lent buffer or 4,096 bytes."
pub fn layouts() -> Vec<Settled> {
    let settled = |text: &str, lent: usize, layout: Result<String, Refusal>| {
        let text = text.to_string();
        Settled { text, lent, layout }
    };
    let skips = |count: usize| format!("vars xyz;{}", "skip;".repeat(count));
    let printed = |count: usize| format!("vars xyz;\n{}", "skip;\n".repeat(count));
    let mut layouts: Vec<Settled> =
        PRINTS.into_iter().map(|(text, print)| settled(text, 4_096, Ok(print.to_string()))).collect();
    layouts.extend([
        settled("vars x;", 8, Ok("vars x;\n".to_string())),
        settled("vars x;", 7, Err(Refusal::plain(15))),
        settled("vars x; x := y;", 0, Err(Refusal::at(11, 13))),
        settled(&skips(681), 4_096, Ok(printed(681))),
        settled(&skips(681), 4_095, Err(Refusal::plain(15))),
        settled(&skips(682), 4_096, Err(Refusal::plain(15))),
        settled(&skips(682), 5_000, Err(Refusal::plain(15))),
        settled(&format!("vars x;{}", "x:=x;".repeat(257)), 0, Err(Refusal::plain(13))),
    ]);
    layouts
}
