; `progn` gives the value of its last form
(progn 1 (print 2))
