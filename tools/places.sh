# usage: places.sh REV (in a checkout)
R=$1
g() { git grep -nE "$1" $R -- 'crates/*/src/*.rt' | sed "s/^$R://"; }
echo "## 1a enums"; g "^(pub(\(super\))? )?enum"
echo "## 1b 'false, and' / 'none, and'"; g "// .*([Ff]alse|[Nn]one), and |// False where"
echo "## 1c codes"; g "(side|step): u|-> u8|Option<bool>"
echo "## 1d match arms that ? or a method does"; g "(None|Err\([a-z_]+\)) => (None|false|return|Err\([A-Za-z]+(::[A-Za-z]+)?(\([a-z]+\))?\)),"
echo "## 3 loops"; g "^ *('[a-z]+: )?(for .* in .*\.\.|while |loop \{|let [a-z]+ = '[a-z]+: loop)"
echo "## 4 comparisons, conversions, printing"; g "fn (at_most|same|same_bytes|cause_text|refusal_text|refusal|listing_refusal|fault_number|word_at|long_at|copy_front|put_words|byte|number)\b"
echo "## 6 arrays and lengths"; g "^ +(pub(\(super\))? )?[a-z]+: (\[[A-Za-z0-9]+; |&'a mut \[|Vec<)"
echo "## 7 switches"; g "fn [a-z_]+.*\b(pile|class|may_miss): (bool|Class)|: Keys<|class: Class\)"
