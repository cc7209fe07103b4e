# Takes a bundle apart: into a file, and a folder with proofs of leaves, so that the report on both together is that on the bundle, where it has one.
#
#     awk -v seed=SEED -v file=FILE -v folder=FOLDER -f soak_folder.awk BUNDLE
#
# A section of a leaf goes into a file of its own, as most do; or it stays in FILE; or it goes with its label line behind the proof that the folder has
# got last, so that all files have to be read in one bundle. Other sections stay in FILE. The same seed gives the same parts.
BEGIN { srand(seed); place = file; printf "" > file }
$1 == "l" {
    chance = rand()
    if (NF != 2 || $2 !~ /^m?[1-9][0-9]*$/ || $2 in seen || chance < 0.1) {
        place = file
    } else if (chance < 0.2 && place != file) {
        seen[$2]
    } else {
        if (place != file) close(place)
        seen[$2]
        place = folder "/" $2 ".lrat"
        printf "" > place
        next
    }
}
{ print > place }
