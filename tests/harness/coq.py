"""Changes of the sources of coq/, each as its file, a text and the text in its place."""

# Wrong rules: each has to break a lemma.
WRONG = {
    "JEQ not taken: what c has outside the mask": (
        "Knowledge.v", "| Equal, false => if within c m then Some (NotBits w m c) else None", "| Equal, false => Some (Bits w m c)"),
    "JGT taken: from c + 2": ("Knowledge.v", "else Some (Between w (c + 1) all) else None", "else Some (Between w (c + 2) all) else None"),
    "JGE not taken: up to c - 2": ("Knowledge.v", "Some (Between w 0 (c - 1))", "Some (Between w 0 (c - 2))"),
    "JSET not taken: all bits of the mask": (
        "Knowledge.v", "| AnyBit, false => Some (Bits w (N.land m c) 0)", "| AnyBit, false => Some (Bits w m 0)"),
    "sharp JSET: a mask of several bits": (
        "Knowledge.v", "if taken then if is_bit m then Bits w m m", "if taken then if true then Bits w m m"),
    "sharp JGT: c may be above the lowest bit": ("Knowledge.v", "else if c <? lowest m then Some", "else if true then Some"),
    "sharp JGT: bits outside the mask need not be known": (
        "Knowledge.v", "if within rest (mask_of literals w)\n", "if true || within rest (mask_of literals w)\n"),
    "a right shift is a left one": ("Knowledge.v", "mapped (fun n => n / 2 ^ k)", "mapped (fun n => n * 2 ^ k)"),
    "a scratch word keeps its first value": (
        "Knowledge.v", "known_scratch := (j, k) :: known_scratch s", "known_scratch := known_scratch s ++ [(j, k)]"),
    "AND with a constant forgets the mask before": (
        "Knowledge.v", "| And, Masked w m, Const c => Masked w (N.land m c)", "| And, Masked w m, Const c => Masked w c"),
    "a NotBits of some bits excludes a number": ("Knowledge.v", "(v =? w) && (m =? all) && (d =? u)", "(v =? w) && (d =? u)"),
    "Bits of all words determine a word": (
        "Knowledge.v", "Bits v m _ :: rest => if v =? w then N.lor m", "Bits v m _ :: rest => if true then N.lor m"),
    "NotBits follows from one of more bits": (
        "Knowledge.v", "(v =? w) && within n m && (N.land d n =? e)", "(v =? w) && within m n && (N.land d n =? e)"),
    "no number is looked for from the middle up": ("Knowledge.v", "(negb asked || bit) && (h <=? hi)", "(negb asked || bit) && (h <? hi)"),
    "two words contradict each other": ("Knowledge.v", "(u =? w) && (v =? w) && negb", "(u =? w) && negb"),
    "a word with one point determines no bits": (
        "Knowledge.v", "Some (lo, hi) => (lo =? hi) && (N.land lo m =? d) | None => false end", "Some _ | None => false end"),
    "a NotBits of other bits excludes nothing": (
        "Knowledge.v", "(v =? w) && within n m && (N.land d n =? e)", "(v =? w) && (n =? m) && (d =? e)"),
    "two Bits contradict each other under equal masks alone": (
        "Knowledge.v", "(v =? w) && negb (N.land (N.land m n) (N.lxor d e) =? 0)", "(v =? w) && (m =? n) && negb (d =? e)"),
    "Dead: a number with all known bits is not looked for": (
        "Knowledge.v", "  || missed literals w (mask_of literals w) (datum_of literals w)\n", ""),
    "sharp JGT: nothing is told of a mask whose lowest bit is above c": (
        "Knowledge.v", "else if c <? lowest m then Some (any_fact w m taken)", "else if c <? 0 then Some (any_fact w m taken)"),
    "a successor is not the next node": ("Rules.v", "if number <? goes e\n", "if number + 1 <? goes e\n"),
    "the greatest argument has all bits of the lower half": ("Rules.v", "Some (lo + W * lo2, hi + W * hi2)", "Some (lo + W * lo2, all + W * hi2)"),
    "several calls: no more than one rule": ("Rules.v", "all_said p v m (rules p) lo hi", "all_said p v m [] lo hi"),
    "a datum may have bits outside the mask": (
        "Bytes.v", "| 2 => need (within two one) BadNode (give (Knows (Bits w one two)))", "| 2 => give (Knows (Bits w one two))"),
    "a value follows from Unknown": (
        "Rules.v",
        "match there with Unknown => true | _ => same_value there here end",
        "match here with Unknown => true | _ => same_value there here end",
    ),
    "the successor's pc is not asked for": ("Rules.v", "if pc to =? goes_pc e then Some", "if true then Some"),
    "the successor's literals are not asked for": ("Rules.v", "forallb (entails now) (known to)", "forallb (fun _ => true) (known to)"),
    "a rule that is out is not asked for": ("Rules.v", "existsb (N.eqb i) (out n) || refuted now q", "existsb (N.eqb i) (out n) || true"),
    "a condition of another rule is met": ("Rules.v", "(i' =? i) && (j' =? j) || has_place", "(j' =? j) || has_place"),
    "a Step may stand at a return": (
        "Rules.v", "| Branch _ _ _ _, None | ReturnK _, _ | ReturnA, _", "| Branch _ _ _ _, None | ReturnA, _"),
    "Split: a number between the ranges": ("Rules.v", "(lo2 =? h + 1)", "(lo2 =? h + 2)"),
    "Split: the data may differ": ("Rules.v", "(w =? v) && (m =? n) && (d =? e)\n", "(w =? v) && (m =? n)\n"),
    "sharp Split: a mask of several bits": ("Rules.v", "(d =? 0) && (e =? m) && is_bit m", "(d =? 0) && (e =? m)"),
    "narrow: a value above 2^32 is not refuted": (
        "Rules.v", "(if is_narrow m then negb (d / W =? 0) else", "(if is_narrow m then (d / W =? 0) else"),
    "the greatest argument has the least upper half": ("Rules.v", "Some (lo + W * lo2, hi + W * hi2)", "Some (lo + W * lo2, hi + W * lo2)"),
    "a rule is yes without its number": (
        "Rules.v",
        "entails (known n) (Bits 0 all (nr q)) && yes_conditions n place q",
        "(true || entails (known n) (Bits 0 all (nr q))) && yes_conditions n place q",
    ),
    "the default is not asked for": ("Rules.v", "|| (default p =? v) && negb (existsb", "|| (true || (default p =? v)) && negb (existsb"),
    "an open rule may have another verdict": (
        "Rules.v", "(verdict q =? v) || is_no_rule n i q", "(verdict q =? v) || true || is_no_rule n i q"),
    "a foreign token is not asked for": (
        "Rules.v",
        "((v =? 0) || existsb (fun m => entails (known n) (Bits 1",
        "((v =? 0) || true || existsb (fun m => entails (known n) (Bits 1",
    ),
    "foreign numbers are not asked for": (
        "Rules.v", "|| foreign_agree p (known n) v m && (among", "|| (true || foreign_agree p (known n) v m) && (among"),
    "x32's numbers are x86-64's own": ("Rules.v", "| LinuxX86_64 => [(0x40000000, 0xfffffffe)]\n", "| LinuxX86_64 => []\n"),
    "several calls: the last is not asked for": ("Rules.v", "(hi <? lo) || said_alone", "(hi <=? lo) || said_alone"),
    "several calls: a rule may have conditions": (
        "Rules.v",
        "match conditions q with [] => true | _ => false end) (rules p).",
        "match conditions q with [] => true | _ => true end) (rules p).",
    ),
    "Root: X may be anything": (
        "Rules.v", "same_value (known_x (registers_at n)) (Const 0)", "(true || same_value (known_x (registers_at n)) (Const 0))"),
    "the kernel takes any conditional jump": (
        "Filters.v", "| Jump _ | Branch _ _ _ _ => if leads_out", "| Branch _ _ _ _ => None\n  | Jump _ => if leads_out"),
    "the kernel takes scratch word 16": ("Filters.v", "if 15 <? k then Some BadLoad", "if 16 <? k then Some BadLoad"),
    "what one path writes counts as written": ("Filters.v", "N.land w written :: words", "N.lor w written :: words"),
    "rules of two arguments exclude each other": ("Clear.v", "(index c1 =? index c2) && exclude", "exclude"),
    "the last number of a range is not looked for": ("Clear.v", "negb ((lo <? hi) && some_between", "negb ((lo + 1 <? hi) && some_between"),
    "a wide argument is below 2^32": ("Clear.v", "let top := if narrow then W else W * W in\n  negb", "let top := W in\n  negb"),
    "big-endian: the instruction pointer is not turned": (
        "ByteOrder.v", "if is_word k && (8 <=? k) then Load", "if is_word k && (16 <=? k) then Load"),
    "a text need not be that of the profile": ("Text.v", "&& same_bytes (text_of native p) text then", "&& (true || same_bytes (text_of native p) text) then"),
    "two conditions on one argument": ("Text.v", "&& distinct (map index (conditions q))", "&& (true || distinct (map index (conditions q)))"),
    "the kernel's refusal is not asked for": (
        "Check.v",
        "      | Some (c, position) => Kernel c position\n",
        "      | Some (BadCode, position) => Kernel BadCode position\n      | Some _ => Yes\n",
    ),
}  # fmt: skip

# Sources of which something is open.
OPEN = {
    "a proof that is left out": (
        "Sound.v",
        "Proof. intros I E O. apply existsb_exists. exists m. split; [exact I|]. now rewrite E, N.eqb_refl, O. Qed.",
        "Admitted.",
    ),
    "an axiom": (
        "Bits.v",
        "Lemma land_le' u m : N.land u m <= u.\nProof. rewrite N.land_comm. apply land_le. Qed.",
        "Axiom land_le' : forall u m, N.land u m <= u.",
    ),
}  # fmt: skip

# Clauses that the proof does not need (docs/CERTIFICATES.md): without each it holds.
NOT_NEEDED = {
    "a condition may be both yes and no": ("Rules.v", "answers m literals c false && negb (is_yes m literals c)", "answers m literals c false && true"),
    "a rule may be both yes and no": ("Rules.v", "  && negb (is_yes_rule n place q).", "  && true."),
    "a rule may be yes where the default counts": ("Rules.v", "&& negb (existsb (fun '(i, q) => is_yes_rule n i q) qs)", "&& true"),
    "Split: h may be all": ("Rules.v", "&& (hi2 =? all) && (h <? all)", "&& (hi2 =? all) && true"),
}  # fmt: skip

# Wrong checkers whose proofs hold, since what they say yes to is right: the comparison has to see each.
UNLIKE = {
    "a node may have 11 entries": ("Bytes.v", "depth (chain_of table last) <=? 512", "depth (chain_of table last) <=? 11"),
    "form 3 is sharp": ("Bytes.v", "sharp := form =? 4", "sharp := 2 <? form"),
    "a wrong offset is told as another fault": ("Bytes.v", "else Bad BadNode", "else Bad Trailing"),
}  # fmt: skip
