; several forms at top level: main gives the value of the last one
(print 1)
(+ 2 (print 3))
