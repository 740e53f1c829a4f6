# The first keys of 20000 roots: more than one read brings.
seq -f '%.0f:0' 0 19999
