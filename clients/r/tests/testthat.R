library(testthat)
library(oldstyle)

test_check("oldstyle")
