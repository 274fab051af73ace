; a sum takes a point for each number and one for itself, and `print` one for its operation
(print (+ 1 2))
