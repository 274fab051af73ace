; `print` writes a string in quotes, and the journal writes it on one line
(print "one \"two\"
three")
(print 'done)
