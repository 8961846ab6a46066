;;; rattle-symbols.el --- the symbols of contracts and definitions  -*- lexical-binding: t; coding: utf-8 -*-

;; An input method: (load "rattle-symbols"), then `C-u C-\ rattle` in a buffer, and type the left column. `C-\` switches it off and on.

(require 'quail)

(quail-define-package
 "rattle" "UTF-8" "≡" t
 "The symbols of contracts and definitions, by the keys of the input method Agda."
 nil t nil nil nil nil nil nil nil nil t)

(quail-define-rules
 ("\\=="    ?≡)   ; equal
 ("\\==n"   ?≢)   ; different
 ("\\to"    ?→)   ; a function type, or "if .. then" in a clause
 ("\\Gl"    ?λ)   ; a function: λ x. ..
 ("\\x"     ?×)   ; and; a pair
 ("\\u+"    ?⊎)   ; or; a choice
 ("\\bot"   ?⊥)   ; never true
 ("\\top"   ?⊤)   ; always true
 ("\\neg"   ?¬)   ; not
 ("\\::"    ?∷)   ; an element before a list
 ("\\bN"    ?ℕ)   ; natural numbers
 ("\\le"    ?≤)   ; at most
 ("\\<->"   ?↔)   ; if and only if
 ("\\|->"   ?↦)   ; a case of a match, in a definition
 ("\\."     ?∙)   ; one equality after another, in a proof
 ("\\ph"    ?◌))  ; the place of an argument in an operator's name

(provide 'rattle-symbols)
;;; rattle-symbols.el ends here
