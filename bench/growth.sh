# Measures how the processor time of each command grows with what it is given: bench/run growth [ROUNDS [SHAPE]].
. bench/files.sh
export DIX DIXLAB place
python3 bench/growth.py "$@"
