# An image that no run leaves: each of its 68,834 rows names all pages of the ring of variable data. Its check ends soon.
python3 "$here/forge.py" image
call() {
    timeout 10 ./flashts "$@"
}
flashts check image
ends "a check of forged references" 0 $'sound t rows 68834 pages 254 voids 0\n' ''
call() {
    timeout 100 ./flashts "$@"
}
