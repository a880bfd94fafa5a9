-- A buffer with two places, first in, first out; 0 means that a place is free. Every order of two producers and two consumers is searched;
-- then many threads use the buffer of a desk.
module Main (main) where

import Control.Concurrent (MVar, forkIO, newEmptyMVar, putMVar, takeMVar)
import Control.Monad (forM, forM_, replicateM)
import Stmdesk
import Stmdesk.Explore

first, second, total :: Exp (Var Int)
first = variable "first" 0
second = variable "second" 0
total = variable "total" 0

put :: Exp Int -> Block ()
put n = do
  a <- readVar first
  b <- readVar second
  if' (a ==. 0) (writeVar first n) (if' (b ==. 0) (writeVar second n) retry)

get :: Block (Exp Int)
get = do
  a <- readVar first
  check' (a /=. 0)
  b <- readVar second
  writeVar first b
  writeVar second 0
  pure a

protocol :: Protocol
protocol = Protocol (map declaration [first, second, total]) invariants clients
  where
    invariants = [always "no gap" noGap, always "not too much" ((<=. 30) <$> readVar total)]
    noGap = do
      a <- readVar first
      b <- readVar second
      pure (a /=. 0 ||. b ==. 0)
    clients =
      [Client ("producer of " ++ show n) [step "put" (put (fromInteger n))] | n <- [10, 20]]
        ++ [Client name [step "get" (get >>= \n -> modifyVar total (+ n))] | name <- ["ann", "bob"]]

main :: IO ()
main = do
  found <- explore everyOrder {allStates = True} protocol
  putStr (explained found)
  withDesk defaults $ \desk -> do
    mapM_ (declareVar desk) [first, second]
    consumers <- replicateM 4 (inThread (replicateM 25 (atomically desk get)))
    producers <- forM [0 .. 3] (\part -> inThread (forM_ [1 .. 25] (\n -> atomically desk (put (fromInteger (25 * part + n))))))
    mapM_ takeMVar producers
    got <- concat <$> mapM takeMVar consumers
    putStrLn ("got " ++ show (length got) ++ " numbers with the sum " ++ show (sum got))

inThread :: IO a -> IO (MVar a)
inThread act = do
  end <- newEmptyMVar
  end <$ forkIO (act >>= putMVar end)
