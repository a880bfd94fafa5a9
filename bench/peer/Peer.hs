-- The same work on GHC's STM, on one thread: each line is a million transactions or so, best of three.
module Main (main) where

import Control.Concurrent.STM
import Control.Exception (evaluate)
import Control.Monad
import Data.IORef
import System.CPUTime
import Text.Printf

-- Nanoseconds of one of `count` runs, the best of three.
timed :: Int -> IO () -> IO Double
timed count work = minimum <$> replicateM 3 once
  where
    once = do
      begin <- getCPUTime
      replicateM_ count work
      end <- getCPUTime
      pure (fromIntegral (end - begin) / 1000 / fromIntegral count)

increment :: TVar Int -> STM Int
increment x = do
  a <- readTVar x
  writeTVar x (a + 1)
  pure a

readAll :: [TVar Int] -> STM Int
readAll = foldM (\s x -> (s +) <$> readTVar x) 0

-- Left branches that read and retry, eight deep.
nested :: Int -> [TVar Int] -> STM Int
nested 0 _ = pure 7
nested n xs = (readAll xs >> retry) `orElse` nested (n - 1) xs

main :: IO ()
main = do
  x <- newTVarIO 0
  sink <- newIORef 0
  let go name count action = do
        ns <- timed count (atomically action >>= writeIORef sink)
        printf "%-44s %10.1f ns\n" (name :: String) ns
  go "the increment" 1000000 (increment x)
  forM_ [10, 100, 1000] $ \n -> do
    xs <- replicateM n (newTVarIO 1)
    ns <- timed (max 100 (1000000 `div` n `div` 10)) (atomically (readAll xs) >>= writeIORef sink)
    printf "%-44s %10.1f ns a read\n" ("a block that reads " ++ show n ++ " variables") (ns / fromIntegral n)
  forM_ [1, 10, 100] $ \n -> do
    xs <- replicateM n (newTVarIO 1)
    go ("orElse 8 deep, reads discarded a level: " ++ show n) (max 100 (100000 `div` n)) (nested 8 xs)
  readIORef sink >>= void . evaluate
