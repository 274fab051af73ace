; a variable has no value before its `defvar`: the thread is aborted
*late*
(defvar *late* 1)
