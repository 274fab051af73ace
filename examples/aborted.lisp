; a condition aborts the thread, and the status is 0 all the same
(print "before")
(print (+ 1 "two"))
(print "after")
