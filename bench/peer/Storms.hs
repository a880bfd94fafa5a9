-- Clients in threads of their own that increment a variable, one transaction after another: storms CLIENTS EACH
-- own|one prints the transactions a second by the clock, the best of three.
module Main (main) where

import Control.Concurrent
import Control.Concurrent.STM
import Control.Monad
import GHC.Clock (getMonotonicTime)
import System.Environment (getArgs)
import Text.Printf

increment :: TVar Int -> STM ()
increment x = do
  a <- readTVar x
  writeTVar x $! a + 1

storm :: Int -> Int -> Bool -> IO Double
storm clients each own = do
  one <- newTVarIO 0
  variables <- replicateM clients (if own then newTVarIO 0 else pure one)
  ends <- replicateM clients newEmptyMVar
  begin <- getMonotonicTime
  forM_ (zip3 [0 ..] variables ends) $ \(k, x, end) ->
    forkOn k (replicateM_ each (atomically (increment x)) >> putMVar end ())
  mapM_ takeMVar ends
  time <- subtract begin <$> getMonotonicTime
  total <- sum <$> mapM readTVarIO (if own then variables else [one])
  when (total /= clients * each) $ error "an increment was lost"
  pure (fromIntegral (clients * each) / time)

main :: IO ()
main = do
  [clients, each, kind] <- getArgs
  best <- maximum <$> replicateM 3 (storm (read clients) (read each) (kind == "own"))
  printf "%.0f\n" best
