"""Inputs found by compare/hunt that tell a deliberately wrong build apart where ordinary ones don't.

CASES: by op, places in the series `Cases.kept`.
SUMS: the only two sums, of all that have a gain, at which a last bit of the gain's table shows
(entry 255, raised), found by going through all of them. TRUNCATED: sums whose gain differs where
floor is taken as truncation."""

# Five correlations each, on which the predictor's stop differs between f32 and f64.
STOPS = [
    [0x4E2D291A, 0x4E29D76C, 0x4E2D12CA, 0x4D8D82CD, 0xCC6FE5FB],
    [0x4DD45472, 0xCDD198DA, 0x4DD438FF, 0x4CCE6DAD, 0xCC29CDAD],
    [0x48E1FE01, 0xC8DDAF1A, 0x48D10992, 0xC7EDBD1F, 0x45C588D4],
    [0x46472BCB, 0x46435A24, 0x46471221, 0xC3938F19, 0x44DE645F],
]
# States by number, and the first predictor coefficient at which the energy guard's answer differs
# between f32 and f64.
GUARDS = [(77, 0xBF7F1393), (233, 0xBF5A5603)]
# Bands and log energies whose gain differs where floor is taken as truncation; the last one's sum
# is the first above -150.
ENERGIES = [(20, 0xC0720EEB), (0, 0xC0CF9B88), (0, 0xC0CF9F25), (20, 0xC07346D9), (0, 0xC31C6FFF)]
CASES = {301: [69, 1488], 305: [15, 160, 951], 801: [15, 220]}
# Records of a category beyond the default size, by place.
FAR = [("overflow's edge", 238), ("overflow's edge", 139), ("faint", 341), ("read off", 187)]
SUMS = [0xB338A6B0, 0xB4CFBF13]
TRUNCATED = [0xBD03BAC0, 0xBD4DC400, 0xBD4F9280, 0xBD51B640, 0xBDAE0A80, 0xBDC665C0]
# Places on the way between two states, by kind and number, at the edge of a choice.
EDGES = [
    ("stop", 45, 1026744566886),  # equal error stops; 0.001's next f32
    ("lag", 2, 127524677872),  # 0.7's f32 before (earlier); refinement at a tie (earlier)
    ("lag", 2, 127525770444),  # 0.7's next f32 (earlier)
    ("lag", 2, 445112133241),  # first energy's one added last
    ("lag", 7, 440497974622),  # running energy by sum and difference
    ("lag", 8, 905341108681),  # 0.7's f32 before (later)
    ("lag", 9, 314829872512),  # refinement at a tie (later); refinement in f64 (later)
    ("lag", 9, 721522057109),  # 0.7's next f32 (later)
    ("lag", 10, 431885518943),  # running energy fused
    ("lag", 10, 1085322516239),  # 0.008's f32 before (search)
    ("lag", 11, 180910808569),  # lag windowing fused (search); lag windowing in f64 (search)
    ("lag", 18, 233325774),  # 0.008's next f32 (search)
    ("lag", 25, 427638915545),  # refinement in f64 (earlier)
    ("guard", 4, 827414241418),  # 0.2's next f32
    ("guard", 14, 975122597842),  # guard compared in f64; guard lets equal through; guard as 5 s1 > s2
    ("guard", 21, 1080547535932),  # 0.2's f32 before
    ("quiet lag", 44, 1086590427554),  # running energy raised to 1's next f32
]
# Records, by category and place at the default size, that between them tell the wrong builds apart
# which records tell apart, refusals aside; found by `compare/hunt --cover`.
STORED = [
    ("tone", 3),  # autocorrelation summed backwards
    ("overflow", 1),  # NaN error stops the predictor
    ("tone", 5),  # early stop one step late
    ("faint", 57),  # smoother rounded otherwise
    ("drum", 21),  # second channel's first sample left out
    ("voice", 10),  # lag windowing by the square (predictor)
    ("voice", 27),  # 40 dB floor left out (search)
    ("swelling", 16),  # running energy not raised to 1
    ("near ties", 2),  # running energy in two steps
    ("near ties", 8),  # running energy from 0
    ("overflow's edge", 1),  # correlation not raised (fine)
    ("overflow's edge", 30),  # correlation raised to 0 (fine)
    ("drum", 3),  # fine sweep one narrower
    ("near ties", 35),  # coarse correlation summed backwards
    ("near ties", 0),  # fine correlation summed backwards
    ("edges", 0),  # equal error stops
    ("one place", 8),  # NaN first correlation set apart
    ("zeros", 4),  # all-zero filter from 0 + x
    ("overflow's edge", 46),  # all-zero filter skips coefficients of 0
    ("faint", 41),  # smoother by quarters
    ("swelling", 67),  # channels summed before the smoother
    ("edges", 11),  # 0.008's next f32 (search)
    ("edges", 9),  # 0.008's f32 before (search)
    ("edges", 10),  # lag windowing fused (search)
    ("kept", 9),  # both candidates begin at 0
    ("edges", 3),  # first energy's one added last
    ("edges", 8),  # running energy fused
    ("overflow's edge", 14),  # running energy's NaN let through
    ("edges", 16),  # running energy raised to 1's next f32
    ("kept", 8),  # first candidate's tie by not less or equal
    ("hiss", 12),  # last lag not asked
    ("near ties", 73),  # fine correlation fused
    ("changing cycles", 13),  # fine search one lag short
    ("drum", 65),  # fine sweep one wider
    ("drum", 59),  # fine sweep's lower end open
    ("tone", 71),  # fine energy one sample less
    ("changing cycles", 0),  # refinement up to 307
    ("edges", 7),  # 0.7's next f32 (later)
    ("edges", 5),  # 0.7's f32 before (later)
    ("edges", 2),  # 0.7's next f32 (earlier)
    ("edges", 1),  # 0.7's f32 before (earlier)
    ("edges", 6),  # refinement at a tie (later)
    ("edges", 12),  # refinement in f64 (earlier)
    ("kept", 7),  # refinement asks the earlier side first
    ("kept", 10),  # fine correlation raised to -2
    ("changing cycles", 75),  # shortest lag one step shorter
    ("mixed sizes", 89),  # 1e-15 left out
    ("tone", 22),  # band energy in f32
    ("tone", 40),  # band's root in f64
    ("comfort noise", 1),  # drop of 1.5 at count 1 too
    ("energy edges", 0),  # doubled after the window
    ("tone", 9),  # noise path at count 4
    ("comfort noise", 16),  # background at count 4
    ("comfort noise", 31),  # 1.5's next f32
    ("silent bands", 2),  # overlap added to 0 first
    ("silent bands", 1),  # overlap of 0 not added
    ("tone", 1),  # fade folded into the decay
    ("edges", 14),  # guard compared in f64
    ("filters", 2),  # pre-filter not at NaN
    ("one place", 80),  # NaN of the later cycle let through
    ("edges", 13),  # 0.2's next f32
    ("edges", 15),  # 0.2's f32 before
    ("tone", 10),  # ratio in f64
    ("hostile words", 0),  # pre-filter's third tap skipped at factor 0
    ("silent bands", 8),  # 0 x v left out
    ("tone", 64),  # published exp2
    ("comfort noise", 11),  # published cosine
    ("kept", 2),  # floor as truncation
    ("tone", 76),  # cubic's last term left out
    ("energy edges", 1),  # gain cut at 31
    ("kept", 6),  # gain of 0 below -150's f32 above
    ("cosines", 3),  # cosine table's last bit (N 960)
    ("cosines", 21),  # cosine table's last bit (N 120)
    ("cosines", 0),  # cosine sum backwards
    ("cosines", 19),  # cosine table's last bit (N 240)
    ("cosines", 4),  # cosine table's last bit (N 480)
    ("comfort noise", 10),  # cosine sum from -0
    ("large counts", 3),  # count 4,294,967,294 refused
    ("tone", 24),  # mean energy 19's next f32
    ("near ties", 22),  # tapset 1, factor 2's next f32
    ("near ties", 10),  # tapset 2, factor 2's next f32
]
# By lm the cosine whose last bit a wrong build turns.
COSINES = [1000, 1004, 1002, 1001]
# By size two spectra, as bins and their words; the other bins are 0. The first has the least subnormal
# in two bins: sums of exactly zero, +0 at an output of the first half and at its mirror; sums whose half
# is too small for an f32, zeros of unlike sign there, either way round; and subnormal outputs. The
# second all but cancels at outputs 30 and 41 of N 120, 18 of N 240, 207 of N 480 and 137 of N 960: +0
# there and -0 at the mirror. Its other outputs are normal numbers.
FAINT = {
    120: [{15: 0x00000001, 95: 0x00000001}, {2: 0x8BEC604A, 17: 0x8C0814B6}],
    240: [{7: 0x00000001, 120: 0x80000001}, {58: 0x0BFBF522, 155: 0x8C07852D}],
    480: [{221: 0x00000001, 418: 0x80000001}, {93: 0x0BED8D84, 179: 0x8C5C8E11}],
    960: [{117: 0x00000001, 629: 0x80000001}, {269: 0x8B5A282E, 798: 0x8B87EF9A}],
}
