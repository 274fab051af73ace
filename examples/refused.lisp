; a symbol that is no variable: refused with its place
(print (+ 1 two))
