" The symbols of contracts and definitions: `:set keymap=rattle`, then type the left column. CTRL-^ in insert mode switches it off and on.
let b:keymap_name = "rattle"

loadkeymap
<Bslash>==    ≡   " equal
<Bslash>==n   ≢   " different
<Bslash>to    →   " a function type, or "if .. then" in a clause
<Bslash>Gl    λ   " a function: λ x. ..
<Bslash>x     ×   " and; a pair
<Bslash>u+    ⊎   " or; a choice
<Bslash>bot   ⊥   " never true
<Bslash>top   ⊤   " always true
<Bslash>neg   ¬   " not
<Bslash>::    ∷   " an element before a list
<Bslash>bN    ℕ   " natural numbers
<Bslash>le    ≤   " at most
<Bslash><->   ↔   " if and only if
<Bslash><Bar>-> ↦  " a case of a match, in a definition
<Bslash>.     ∙   " one equality after another, in a proof
<Bslash>ph    ◌   " the place of an argument in an operator's name
