-- Measures GHC's copying collector: a live structure of so many nodes is collected again and again by major collections. It is
-- a tree whose nodes have two pointers and one word each, or as many nodes that lead to two earlier ones, or a list of nodes
-- of one pointer and one word. Prints the objects that were copied a second.
--   ghc -O -threaded -rtsopts live_tree.hs && ./live_tree tree|wide|list NODES COLLECTIONS +RTS -N1
import Control.Monad (replicateM_)
import Data.Array (Array, elems, listArray, (!))
import Data.IORef (newIORef, readIORef)
import Data.List (foldl')
import GHC.Clock (getMonotonicTime)
import System.Environment (getArgs)
import System.Mem (performMajorGC)

data Tree = Leaf | Node !Tree !Tree {-# UNPACK #-} !Word

data List = Nil | Cons !List {-# UNPACK #-} !Word

-- The nodes from number `i` down, where node `i` leads to nodes 2 i + 1 and 2 i + 2. A leaf is no object of the heap.
tree :: Int -> Int -> Tree
tree nodes i
  | i >= nodes = Leaf
  | otherwise = Node (tree nodes (2 * i + 1)) (tree nodes (2 * i + 2)) (fromIntegral i)

-- Each leads to two earlier nodes. Beside them stands an array that leads to all.
wide :: Int -> Array Int Tree
wide nodes = foldl' (flip seq) made (elems made)
  where
    made = listArray (0, nodes - 1) (map node [0 .. nodes - 1])
    node 0 = Node Leaf Leaf 0
    node i = Node (made ! ((i * 7919 + 13) `mod` i)) (made ! ((i * 104729 + 5) `mod` i)) (fromIntegral i)

list :: Int -> List
list nodes = foldl' (\rest i -> Cons rest (fromIntegral i)) Nil [1 .. nodes]

size :: Tree -> Int
size Leaf = 0
size (Node left right _) = 1 + size left + size right

len :: List -> Int -> Int
len Nil count = count
len (Cons rest _) count = len rest $! count + 1

-- Collects while a structure lives, and prints the objects a second.
measure :: Int -> (a -> Int) -> a -> IO ()
measure collections count made = do
  live <- newIORef $! made
  replicateM_ 2 performMajorGC
  start <- getMonotonicTime
  replicateM_ collections performMajorGC
  end <- getMonotonicTime
  -- It has lived until here.
  kept <- count <$> readIORef live
  print (fromIntegral (kept * collections) / (end - start) :: Double)

main :: IO ()
main = do
  [shape, nodes, collections] <- getArgs
  let (n, times) = (read nodes, read collections)
  case shape of
    "wide" -> measure times length (wide n)
    "list" -> measure times (`len` 0) (list n)
    _ -> measure times size (tree n 0)
