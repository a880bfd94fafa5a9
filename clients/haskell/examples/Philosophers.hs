-- Three philosophers round a table, a fork between any two. First every order is searched: of those who take fork by fork, and of those
-- who take both at once. Then the latter eat for real, in threads of GHC's.
module Main (main) where

import Control.Monad (unless)
import qualified Control.Concurrent.STM as STM
import Stmdesk
import Stmdesk.Explore

fork :: Int -> Exp (Var Bool)
fork n = variable ("fork" ++ show n) true

take', put :: Int -> Block ()
take' n = do
  isThere <- readVar (fork n)
  check' isThere
  writeVar (fork n) false
put n = writeVar (fork n) true

-- The forks on both sides of each.
sides :: [(String, Int, Int)]
sides = [("Kant", 1, 2), ("Hume", 2, 3), ("Hegel", 3, 1)]

forkByFork, bothAtOnce :: [Client]
forkByFork =
  [ Client name [step "takes the left fork" (take' l), step "takes the right fork" (take' r), step "puts both" (put l >> put r)]
  | (name, l, r) <- sides
  ]
bothAtOnce =
  [ Client name [step "takes both forks" (take' l >> take' r), step "puts both" (put l >> put r)]
  | (name, l, r) <- sides
  ]

forks :: [Declaration]
forks = [declaration (fork n) | n <- [1 .. 3]]

main :: IO ()
main = do
  putStrLn "Fork by fork"
  explore everyOrder (Protocol forks [] forkByFork) >>= putStr . explained
  putStrLn "Both at once"
  found <- explore everyOrder {allStates = True} (Protocol forks [] bothAtOnce)
  putStr (explained found)
  unless (outcome found == AllRight) (fail "so they don't eat")
  vars <- newVars forks
  missed <- runClients vars (concat (replicate 100 bothAtOnce))
  there <- STM.atomically (mapM (toSTM vars . readVar . fork) [1 .. 3])
  putStrLn ("300 meals on GHC, forks on the table: " ++ show (length (filter id there)) ++ ", missed: " ++ show (length missed))
