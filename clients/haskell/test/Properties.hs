-- | @properties [--blocks N] [--protocols N] [--seed N] [--seconds N] PROGRAM [PART]@ tests the package against the program: the tests that
-- have the part in their names, or all. The last line is @N passed, M failed@.
module Main (main) where

import Blocks (blocks)
import Check (runTests)
import Desks (desks)
import Protocols (protocols)
import Stmdesk (Options (program), defaults, findProgram)
import System.Environment (getArgs)
import Texts (texts)

main :: IO ()
main = do
  words' <- getArgs
  let option name otherwise' = case dropWhile (/= name) words' of
        _ : it : _ -> read it
        _ -> otherwise' :: Int
      plain (('-' : '-' : _) : _ : rest) = plain rest
      plain (it : rest) = it : plain rest
      plain [] = []
      seed = option "--seed" 1
  path <- findProgram (case plain words' of { it : _ -> Just it; [] -> Nothing })
  runTests (option "--seconds" 120) (concat (drop 1 (plain words'))) . concat $
    [ texts path
    , desks path
    , blocks seed (option "--blocks" 2000) defaults {program = Just path}
    , protocols seed (option "--protocols" 100) path
    ]
