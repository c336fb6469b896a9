# entanglement.R [PAIRS [SEED]]: compares what R's dendextend prints with what desk answers, at the repository's root:
#   Rscript host/labs/entanglement.R
# Each pair is two trees that hclust makes of random data over 2 to 512 isolates, those of the second in another order, with rows
# turned over on both sides. entanglement(a, b, L = 2) must be the ratio of squared_entanglement in all 64 bits, and
# floor(sqrt(1e6 * it)) what thousandths answers. Ends with 1 if one differs. Needs Debian's r-base-core and r-cran-dendextend.
suppressPackageStartupMessages(library(dendextend))
given <- as.integer(commandArgs(trailingOnly = TRUE))
pairs <- if (length(given) > 0) given[1] else 250L
set.seed(if (length(given) > 1) given[2] else 1L)
methods <- c("ward.D", "ward.D2", "single", "complete", "average", "mcquitty", "median", "centroid")

two_bytes <- function(x) writeBin(as.integer(x), raw(), size = 2, endian = "big")
digits <- function(bytes) paste(bytes, collapse = "")

# A tree, and a layout for it.
drawn <- function(data) {
  n <- nrow(data)
  list(hc = hclust(dist(data), sample(methods, 1)), layout = sample(0:1, n - 1, replace = TRUE))
}

# The tree as R measures it: the entries of a row that is turned over are exchanged.
as_it_stands <- function(side) {
  hc <- side$hc
  over <- side$layout == 1
  hc$merge[over, ] <- hc$merge[over, 2:1]
  as.dendrogram(hc)
}

# The record of both (docs/RECORD.md), in hexadecimal digits.
record <- function(left, right, n) {
  rows <- function(hc) two_bytes(t(ifelse(hc$merge < 0, -hc$merge, n + hc$merge)))
  links <- two_bytes(match(left$hc$labels, right$hc$labels))
  digits(c(charToRaw("TGP"), as.raw(0:1), charToRaw("N"), two_bytes(n), rows(left$hc), rows(right$hc), links,
    as.raw(left$layout), as.raw(right$layout)))
}

# Up to 100 pairs: the calls, and what R says that their answers end with.
batch <- function(count) {
  calls <- wanted <- character()
  for (i in seq_len(count)) {
    n <- if (i %% 25 == 0) sample(500:512, 1) else sample(2:100, 1)
    data <- matrix(rnorm(3 * n), n, dimnames = list(paste0("isolate", 1:n), NULL))
    other <- data + rnorm(3 * n, sd = runif(1, 0, 2))
    left <- drawn(data)
    right <- drawn(other[sample(n), , drop = FALSE])
    ratio <- entanglement(as_it_stands(left), as_it_stands(right), L = 2)
    bytes <- record(left, right, n)
    calls <- c(calls, paste("squared_entanglement", bytes), paste("thousandths", bytes))
    wanted <- c(wanted, digits(writeBin(ratio, raw(), endian = "big")), paste(0, floor(sqrt(1e6 * ratio))))
  }
  answers <- system2("bash", "host/desk.sh", input = calls, stdout = TRUE)
  stopifnot(length(answers) == length(calls))
  answers[c(TRUE, FALSE)] <- sub(".* ", "", answers[c(TRUE, FALSE)])
  sum(answers != wanted)
}

different <- 0
left_over <- pairs
while (left_over > 0) {
  different <- different + batch(min(left_over, 100L))
  left_over <- left_over - 100L
  cat(max(left_over, 0L), "pairs to go\n", file = stderr())
}
cat(pairs, "pairs,", different, "answers differ;", R.version.string, "dendextend", format(packageVersion("dendextend")), "\n")
quit(status = if (different == 0) 0 else 1)
