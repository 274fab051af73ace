; what `print` prints stands in the journal
(print "Hello, world!")
